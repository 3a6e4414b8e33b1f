"""ACCESS (section 16.1)."""
from nfs4tools.model.state import State
from nfs4tools.model.state_parts import Filehandles, expect_filehandle
from nfs4tools.wire import Access, u32

# What can be asked at all: READ, LOOKUP, MODIFY, EXTEND, DELETE and EXECUTE, by a bit each.
ALL = 63
# What anybody may do: to a file READ, MODIFY and EXTEND; to a directory READ and LOOKUP, and under the profile
# "clients" MODIFY, too.
OF_FILE, OF_DIRECTORY, OF_DIRECTORY_FOR_CLIENTS = 13, 3, 7


def rule(server: State, arguments: Access, handles: Filehandles) -> bytes:
    node = expect_filehandle(handles.current)
    supported = arguments.access & ALL
    of_directory = OF_DIRECTORY_FOR_CLIENTS if server.is_for_clients() else OF_DIRECTORY
    return u32(supported, supported & (OF_FILE if server.tree.is_file(node) else of_directory))
