"""Forms: how a value is read, and how it is written.

The fields of a record have their forms in their annotations. `form_of` makes a record's form of them."""
from collections.abc import Callable, Iterable, Sequence
from functools import partial
from operator import methodcaller
from typing import Annotated, Any, NamedTuple, get_origin, get_type_hints

from nfs4tools.wire.xdr import Reader, bitmap, opaque, u32, u64


class Form(NamedTuple):
    read: Callable[[Reader], Any]
    write: Callable[[Any], bytes]


def form_of(kind: Any) -> Form:
    """The form of an annotation, or of a record: the forms of its fields, in their order."""
    if get_origin(kind) is Annotated:
        form: Form = kind.__metadata__[0]
        return form
    kinds = list(get_type_hints(kind, include_extras=True).values())
    # As `kind` would make it of its values, in a third of the time.
    make: Callable[[Iterable[Any]], Any] = partial(tuple.__new__, kind)
    if all(each is Word for each in kinds):
        return Form(lambda reader: make(reader.u32s(len(kinds))), lambda record: u32(*record))
    forms = [form_of(each) for each in kinds]
    reads = [form.read for form in forms]
    return Form(
        lambda reader: make([read(reader) for read in reads]),
        lambda record: b"".join([form.write(value) for form, value in zip(forms, record)]),
    )


def one_of(count: int, first: int = 0) -> Form:
    return Form(lambda reader: reader.one_of(count, first), u32)


def bytes_up_to(limit: int) -> Form:
    return Form(lambda reader: reader.opaque(limit), opaque)


Word = Annotated[int, Form(methodcaller("u32"), u32)]
Long = Annotated[int, Form(methodcaller("u64"), u64)]
Bool = Annotated[int, one_of(2)]
Mask = Annotated[Sequence[int], Form(lambda reader: reader.bitmap(), bitmap)]
Verifier = Annotated[bytes, Form(lambda reader: reader.fixed(8), bytes)]
Text = Annotated[bytes, Form(lambda reader: reader.opaque(), opaque)]
Data = Annotated[bytes, Form(lambda reader: reader.file_bytes(), opaque)]
