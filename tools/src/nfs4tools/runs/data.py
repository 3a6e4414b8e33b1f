"""An entry as JSON has it (docs/run.schema.json): with the field names of RFC 7531, numbers as numbers, and numbers of 64
bits as texts. Enumerations and flags are the words of `nfs4tools.journal.named_words`."""
import json
from collections.abc import Callable, Iterable
from typing import Any

from nfs4tools.journal.entries import Call, Expire, Path, Revoke
from nfs4tools.journal.named_words import (
    SHOWN_AS,
    attribute_name,
    fields_of,
    fields_of_answer,
    hex_word,
    operation_name,
    values_of,
)
from nfs4tools.journal.words import FLAVOR_NAMES, SHOWN, STATUS_NAMES
from nfs4tools.model.attributes import numbers_of
from nfs4tools.runs.parties import Event, text_of
from nfs4tools.runs.reasons import owner_data
from nfs4tools.runs.run import Entry
from nfs4tools.wire import AccessEntry, LockOwner, OpenOwner, Principal, Stateid, u32

# Fields by their names and values, as `nfs4tools.journal.named_words` gives them.
Fields = Iterable[tuple[str, Any]]
# The attributes whose values are numbers of 32 bits.
NUMBERS = {"fh_expire_type", "lease_time", "maxname", "numlinks"}
BOOLS: dict[str, bool | str] = {"TRUE": True, "FALSE": False}
KINDS = {Expire: "expire", Revoke: "revoke", Path: "path"}


def clientid_data(epoch: int, client: int) -> str:
    """A clientid4: a number of 64 bits."""
    return str(epoch << 32 | client)


def stateid_data(stateid: Stateid) -> dict[str, Any]:
    """A stateid4, and the parts that this server gives its `other`."""
    epoch, client, state = stateid[1:]
    other = u32(epoch, client, state).hex()
    return {"seqid": stateid.seqid, "other": other, "epoch": epoch, "client": client, "state": state}


def attributes_data(fattr: Any) -> dict[str, Any]:
    """Attributes by their names. From the first value on that can't be told they are null, and `bytes` has these."""
    words, names, rest = values_of(fattr)
    data: dict[str, Any] = {}
    for word in words:
        name, _, value = word.partition("=")
        data[name] = int(value) if name in NUMBERS else BOOLS.get(value, value.strip('"'))
    return data | dict.fromkeys(names) | ({"bytes": hex_word(rest)} if rest else {})


def flags_data(name: str) -> Callable[[int], list[str]]:
    return lambda value: SHOWN_AS[name](value).split("|") if value else []


def permissions_data(entry: AccessEntry) -> dict[str, Any]:
    """An nfsace4."""
    return {"type": entry.kind, "flag": entry.flag, "access_mask": entry.mask, "who": text_of(entry.who)}


def mask_data(mask: Any) -> list[str]:
    return [attribute_name(number) for number in sorted(numbers_of(mask))]


# By the names of fields. Of the others bytes are texts, and numbers are numbers.
LONG = "offset", "length", "before", "after", "setclientid_confirm", "cookie", "filesize"
DATA: dict[str, Callable[[Any], Any]] = {
    **{name: SHOWN_AS[name] for name in SHOWN_AS if name not in ("cb_program", *LONG)},
    **dict.fromkeys(LONG, str),
    **dict.fromkeys(("reclaim", "atomic", "recall", "eof"), bool),
    **dict.fromkeys(("attr_request", "attrset", "attrsset"), mask_data),
    **dict.fromkeys(("obj_attributes", "createattrs", "attrs"), attributes_data),
    **{name: flags_data(name) for name in ("rflags", "access", "supported")},
    "clientid": lambda value: clientid_data(*value),
    "permissions": permissions_data,
}


def value_data(name: str, value: Any) -> Any:
    if name in DATA:
        return DATA[name](value)
    if isinstance(value, Stateid):
        return stateid_data(value)
    if isinstance(value, (OpenOwner, LockOwner)):
        return {"clientid": clientid_data(value.epoch, value.client), "owner": text_of(value.name)}
    return text_of(value) if isinstance(value, bytes) else value


def fields_data(fields: Fields, is_whole: bool) -> dict[str, Any]:
    """Fields as an object. Objects of their own are a delegation that an OPEN brings, and the entries of a listing. The
    bytes of READ and WRITE are texts, of which the first are there unless all are wanted."""
    data: dict[str, Any] = {}
    at = data
    for name, value in fields:
        if name == "delegation_type":
            at = data["delegation"] = {}
        if "cookieverf" in data and name in ("cookie", "eof"):
            at = begin_listed(data, name)
        if name == "data":
            data |= {"data": text_of(value if is_whole else value[:SHOWN]), "data_length": len(value)}
        else:
            at[name.removeprefix("delegation.")] = value_data(name, value)
    return data


def begin_listed(data: dict[str, Any], name: str) -> dict[str, Any]:
    """Where the fields go that begin with this one of a listing: a new entry, or, behind the last one, the listing."""
    listed: list[dict[str, Any]] = data.setdefault("entries", [])
    if name == "eof":
        return data
    listed.append({})
    return listed[-1]


def principal_data(principal: Principal) -> dict[str, Any]:
    flavor, uid = principal
    return {"flavor": FLAVOR_NAMES[flavor], "uid": uid}


def entry_data(entry: Entry, is_whole: bool = False) -> dict[str, Any]:
    """An entry as an object."""
    call = entry.call
    data: dict[str, Any] = {
        "entry": entry.number,
        "kind": "call" if call else KINDS.get(type(entry.recorded), "forget"),
        "moment": entry.moment,
        "client": entry.client,
        "client_number": entry.client_number,
        "path": entry.path,
        "owners": [owner_data(it) for it in entry.owners],
    }
    return data | (call_data(call, entry.file, is_whole) if call else event_data(entry.event))


def call_data(call: Call, filehandle: str | None, is_whole: bool) -> dict[str, Any]:
    """What only a call has. `result` is null if nothing follows the status."""
    return {
        "principal": principal_data(call.principal),
        "filehandle": filehandle,
        "operation": call.opnum.name,
        "arguments": fields_data(fields_of(call.arguments), is_whole),
        "answered": operation_name(call.answer.number),
        "status": STATUS_NAMES[call.answer.status],
        "result": fields_data(fields_of_answer(call.answer), is_whole) or None,
    }


def event_data(event: Event | None) -> dict[str, Any]:
    """What only an event has."""
    if isinstance(event, Expire):
        return {"seen": event.seen}
    if isinstance(event, Revoke):
        return {"state": event.state}
    return {"is_up": bool(event.is_up)} if isinstance(event, Path) else {}


def line_of(data: dict[str, Any]) -> str:
    """A line of JSON Lines."""
    return json.dumps(data, ensure_ascii=False, separators=(",", ":"))
