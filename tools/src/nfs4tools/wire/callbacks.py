"""The operations by which a server calls a client, with their arguments and results."""
from typing import NamedTuple

from nfs4tools.wire.data_types import FATTR, Filehandle, Stateid
from nfs4tools.wire.forms import Bool, Mask, form_of
from nfs4tools.wire.opnums import CALLBACK_OPERATIONS
from nfs4tools.wire.results import OperationResult
from nfs4tools.wire.statuses import Status
from nfs4tools.wire.xdr import Reader


class CallbackGetattr(NamedTuple):
    filehandle: Filehandle
    mask: Mask


class CallbackRecall(NamedTuple):
    stateid: Stateid
    truncate: Bool
    filehandle: Filehandle


CALLBACK_ARGUMENTS = {
    CALLBACK_OPERATIONS["CB_GETATTR"]: form_of(CallbackGetattr).read,
    CALLBACK_OPERATIONS["CB_RECALL"]: form_of(CallbackRecall).read,
}


def read_callback_result(reader: Reader) -> OperationResult:
    number, status = reader.u32(), reader.u32()
    is_read = (number, status) == (CALLBACK_OPERATIONS["CB_GETATTR"], Status.OK)
    return OperationResult(number, status, FATTR.read(reader) if is_read else None)
