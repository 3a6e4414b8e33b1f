"""SETATTR (section 16.32). The one attribute that can be set is the size; the time of the last change is what the
server says."""
from nfs4tools.model.attributes import mask_of
from nfs4tools.model.files import Files
from nfs4tools.model.state_parts import Refusal, expect_filehandle
from nfs4tools.wire import Setattr, WRITE, bitmap


def rule(server: Files, arguments: Setattr, filehandle: int | None) -> bytes:
    mask, values = arguments.attributes
    try:
        file = expect_filehandle(filehandle)
        asked = server.settable(mask)
        size = server.size_of(asked, values)
        if asked:
            server.expect_access(arguments.stateid, file, WRITE)
            server.resize(file, len(server.text_of(file)) if size is None else size)
    except Refusal as refusal:
        raise Refusal(refusal.status, bitmap([])) from None
    return bitmap(mask_of(asked))
