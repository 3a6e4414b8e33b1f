"""WRITE (section 16.36). Whatever is asked, the bytes are as safe as they will be."""
from nfs4tools.model.files import Files
from nfs4tools.model.state import State
from nfs4tools.model.state_parts import Refusal, expect_filehandle
from nfs4tools.model.tree import TEXT_LIMIT
from nfs4tools.wire import FILE_SYNC4, Status, WRITE, Write, u32


def rule(server: Files, arguments: Write, filehandle: int | None) -> bytes:
    file = expect_filehandle(filehandle)
    server.expect_access(arguments.stateid, file, WRITE)
    begin, data = arguments.offset, arguments.data
    if begin + len(data) > TEXT_LIMIT:
        raise Refusal(Status.FBIG)
    if data:
        text = server.text_of(file).ljust(begin, b"\0")
        server.change_text(file, text[:begin] + data + text[begin + len(data) :])
    return u32(len(data), FILE_SYNC4) + verifier(server)


def verifier(server: State) -> bytes:
    """Of this run: another one has lost what was written."""
    return u32(server.epoch, 0)
