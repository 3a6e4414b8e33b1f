"""GETATTR (section 16.7)."""
from nfs4tools.model.attributes import Attributes
from nfs4tools.model.state_parts import expect_filehandle
from nfs4tools.wire import Getattr


def rule(server: Attributes, arguments: Getattr, filehandle: int | None) -> bytes:
    node = expect_filehandle(filehandle)
    server.expect_readable(arguments.mask)
    return server.values_asked(node, arguments.mask)
