"""Judges values by a JSON schema, as far as docs/run.schema.json needs it: no package is needed for that."""
import json
import re
from collections.abc import Iterator
from typing import Any

TYPES: dict[str, tuple[type, ...]] = {
    "object": (dict,),
    "array": (list,),
    "string": (str,),
    "integer": (int,),
    "boolean": (bool,),
    "null": (type(None),),
}
# What says nothing about a value.
SAID = {"$schema", "$defs", "title", "description", "then", "else"}


class Schema:
    """The schema of a file."""

    def __init__(self, path: str) -> None:
        with open(path, encoding="utf-8") as source:
            self.all = json.load(source)

    def faults(self, value: Any, by: Any = None, at: str = "") -> list[str]:
        """What is wrong with a value, each with its place."""
        return list(self.found(value, self.all if by is None else by, at))

    def found(self, value: Any, by: dict[str, Any], at: str) -> Iterator[str]:
        for word, wanted in by.items():
            if word not in SAID:
                yield from getattr(self, "by_" + word.replace("$", ""))(value, wanted, by, at)

    def by_ref(self, value: Any, wanted: str, _by: Any, at: str) -> Iterator[str]:
        return self.found(value, self.all["$defs"][wanted.rpartition("/")[2]], at)

    def by_if(self, value: Any, wanted: Any, by: Any, at: str) -> Iterator[str]:
        branch = "else" if self.faults(value, wanted, at) else "then"
        return self.found(value, by.get(branch, {}), at)

    def by_anyOf(self, value: Any, wanted: list[Any], _by: Any, at: str) -> Iterator[str]:
        found = [self.faults(value, it, at) for it in wanted]
        if all(found):
            yield from found[0]

    def by_type(self, value: Any, wanted: str | list[str], _by: Any, at: str) -> Iterator[str]:
        names = [wanted] if isinstance(wanted, str) else wanted
        is_right = any(isinstance(value, TYPES[it]) and isinstance(value, bool) == (it == "boolean") for it in names)
        if not is_right:
            yield f"{at}: {value!r} is no {' or '.join(names)}"

    def by_required(self, value: Any, wanted: list[str], _by: Any, at: str) -> Iterator[str]:
        yield from (f"{at}.{name} is missing" for name in wanted if isinstance(value, dict) and name not in value)

    def by_properties(self, value: Any, wanted: dict[str, Any], _by: Any, at: str) -> Iterator[str]:
        for name, schema in wanted.items():
            if isinstance(value, dict) and name in value:
                yield from self.found(value[name], schema, f"{at}.{name}")

    def by_additionalProperties(self, value: Any, wanted: Any, by: Any, at: str) -> Iterator[str]:
        for name in value.keys() - by.get("properties", {}).keys() if isinstance(value, dict) else ():
            if wanted is False:
                yield f"{at}.{name} has no schema"
            else:
                yield from self.found(value[name], wanted, f"{at}.{name}")

    def by_items(self, value: Any, wanted: Any, _by: Any, at: str) -> Iterator[str]:
        for place, each in enumerate(value if isinstance(value, list) else ()):
            yield from self.found(each, wanted, f"{at}[{place}]")

    def by_enum(self, value: Any, wanted: list[Any], _by: Any, at: str) -> Iterator[str]:
        if value not in wanted:
            yield f"{at}: {value!r} is none of {wanted}"

    def by_const(self, value: Any, wanted: Any, by: Any, at: str) -> Iterator[str]:
        return self.by_enum(value, [wanted], by, at)

    def by_pattern(self, value: Any, wanted: str, _by: Any, at: str) -> Iterator[str]:
        if isinstance(value, str) and not re.search(wanted, value):
            yield f"{at}: {value!r} isn't as {wanted}"

    def by_minimum(self, value: Any, wanted: int, _by: Any, at: str) -> Iterator[str]:
        if isinstance(value, int) and value < wanted:
            yield f"{at}: {value} is below {wanted}"

    def by_maximum(self, value: Any, wanted: int, _by: Any, at: str) -> Iterator[str]:
        if isinstance(value, int) and value > wanted:
            yield f"{at}: {value} is above {wanted}"
