"""READ (section 16.23)."""
from nfs4tools.model.files import Files
from nfs4tools.model.state_parts import expect_filehandle
from nfs4tools.wire import READ, Read, opaque, u32

# The most bytes that are given.
LIMIT = 65536


def rule(server: Files, arguments: Read, filehandle: int | None) -> bytes:
    file = expect_filehandle(filehandle)
    server.expect_access(arguments.stateid, file, READ)
    text, begin = server.text_of(file), arguments.offset
    data = text[begin : begin + min(arguments.count, LIMIT)]
    return u32(begin + len(data) >= len(text)) + opaque(data)
