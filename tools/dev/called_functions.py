"""Which functions of the crates a program runs, read from their sources by names: what is called by a body that is
reached from `main`.

A call by a path (`Type::name`, `file::name`) is of what the path names. A call of a bare name is of a function of the
same file, or of what a `use` of the file brings. A call after a dot is of a method of the receiver's type, if that can
be read: from a parameter, a field, a `let`, or what a function returns. Of a trait all implementations count. A macro's
name means what the macro writes. Methods of traits from elsewhere (`Drop`, `Iterator`) count if their type occurs.

If none of this tells which function is called, each function of that name may be: such a call is a *guess*. A caller of
this module may say which function is meant."""
import re
from collections import defaultdict
from collections.abc import Iterable, Iterator, Mapping
from functools import cache
from typing import NamedTuple

from dev.clause_index import Item, Source, behind, crates, items_in, owner_of, sources_of


class Body(NamedTuple):
    """A function, or what a macro writes: where it is, its signature with its contract, and its body. A method has an
    owner, the trait that has it (also a trait's own), and the head of its `impl`."""

    crate: str
    path: str
    name: str
    owner: str
    trait: str
    head: str
    code: str
    around: str

    def __str__(self) -> str:
        return f"{self.owner}::{self.name}" if self.owner else self.name

    @property
    def stem(self) -> str:
        return self.path.rpartition("/")[2].removesuffix(".rt")

    @property
    def returned(self) -> str:
        found = re.search(r"->(.*?)(?=\b(?:requires|ensures|where)\b|$)", self.head, re.S)
        return found[1] if found else ""

    @property
    def signature(self) -> str:
        """The head without its contract."""
        return re.split(r"\b(?:requires|ensures)\b", self.head)[0]

    @property
    def is_law(self) -> bool:
        """Whether it has `ensures`, and neither gives nor changes anything."""
        return "->" not in self.signature and "&mut" not in self.signature and "ensures" in self.head


class Type(NamedTuple):
    """What is known of a type: its own name, and the first of its names that is one of the crates'."""

    outer: str
    inner: str


class Call(NamedTuple):
    """A call of a body, and whether it is a guess."""

    called: Body
    is_guess: bool


# Types whose methods are those of what they hold.
CLEAR = {"Box", "Arc", "Rc", "MutexGuard"}
# Names of methods that types of std have, too.
OF_STD = {
    "clear",
    "contains",
    "first",
    "get",
    "insert",
    "is_empty",
    "iter",
    "last",
    "len",
    "next",
    "push",
    "remove",
    "replace",
    "take",
}
NAME = re.compile(r"(?:(\.)\s*|(\w+)(?:\s*::\s*<[^;{}()]*?>)?\s*::\s*)?\b([a-z_]\w*)\b(?!\s*:[^:])")
ARGUMENTS = re.compile(r"\s*(?:::\s*<[^()]*?>\s*)?\(")
STEP = re.compile(r"\.(\w+)(?:::<[^()]*?>)?")
FIRST = re.compile(r"((?:\w+::)*)(\w+)(?:::<[^()]*?>)?")
FIELD = re.compile(r"^\s*(?:pub(?:\([\w ]+\))?\s+)?(\w+):\s*([^\n]*?),?$", re.M)
BOUND = re.compile(r"\b([A-Z]\w*)\s*:\s*(?:[\w' ]*\+\s*)?([A-Z]\w*)")


def used_in(code: str) -> Iterator[tuple[str, list[str]]]:
    """The names that the `use` items of a file bring, each with its path."""
    for tree in re.findall(r"^(?:pub(?:\([\w ]+\))? )?use ([^;]+);", code, re.M):
        yield from leaves("".join(tree.split()), [])


def leaves(tree: str, above: list[str]) -> Iterator[tuple[str, list[str]]]:
    head, brace, rest = tree.partition("{")
    if not brace:
        path = above + tree.partition(" as ")[0].split("::")
        yield path[-1], path
        return
    depth, at, inner = 0, 0, rest[:-1]
    for place, mark in enumerate(inner + ","):
        depth += {"{": 1, "}": -1}.get(mark, 0)
        if mark == "," and not depth:
            yield from leaves(inner[at:place], above + [it for it in head.split("::") if it])
            at = place + 1


def receiver(code: str, end: int) -> str:
    """The expression that ends before a dot."""
    at = end
    while at > 0:
        mark = code[at - 1]
        if mark in ")]":
            depth, at = 1, at - 1
            while at > 0 and depth:
                at -= 1
                depth += (code[at] in ")]}") - (code[at] in "([{")
        elif mark.isalnum() or mark in "_.?":
            at -= 1
        elif code[:at].endswith("::"):
            at -= 2
        elif generic := re.search(r"::<[^<>]*>$", code[:at]):
            at = generic.start()
        elif mark.isspace() and (code[at:].lstrip()[:1] == "." or code[:at].rstrip()[-1:] == "."):
            at = len(code[:at].rstrip())
        else:
            break
    return code[at:end]


class Program:
    """The functions of some sources, of which those of the crate `top` have `main`. `below` has the crates that each
    crate may name, directly or not. For a body and a name that it calls after a dot, `meant` has the function that is
    meant."""

    def __init__(
        self, top: str, sources: Iterable[Source], below: Mapping[str, set[str]], meant: Mapping[tuple[str, str], str]
    ) -> None:
        self.below, self.meant, self.guessed = below, meant, set[tuple[str, str]]()
        self.named, self.macros = defaultdict[str, list[Body]](list), dict[str, Body]()
        self.fields, self.types, self.traits = defaultdict[str, dict[str, str]](dict), set[str](), set[str]()
        self.uses = dict[str, dict[str, list[str]]]()
        for source in sources:
            self.uses[source.path] = dict(used_in(source.code))
            for item in items_in(source.code, 0, len(source.code)):
                self.take(source, item)
        self.main = next(it for it in self.named["main"] if it.crate == top)

    def take(self, source: Source, item: Item) -> None:
        code = source.code
        if item.kind == "fn":
            self.add(source, item, "", "", "")
        elif item.kind in ("impl", "trait"):
            head = code[item.word : item.block]
            trait, owner = (item.name, item.name) if item.kind == "trait" else owner_of(head.removeprefix("impl"))
            self.traits |= {item.name} if item.kind == "trait" else set()
            for method in items_in(code, item.block + 1, item.end - 1):
                if method.kind == "fn":
                    self.add(source, method, owner, trait, head)
        elif item.kind in ("struct", "enum"):
            self.types.add(item.name)
            self.fields[item.name] |= dict(FIELD.findall(code[item.block : item.end]))
        elif item.kind.startswith("macro_rules"):
            self.macros[item.name] = Body(
                source.crate, source.path, f"{item.name}!", "", "", "", code[item.block : item.end], ""
            )

    def add(self, source: Source, item: Item, owner: str, trait: str, around: str) -> None:
        head, code = source.code[item.start : item.block], source.code[item.block : item.end]
        self.named[item.name].append(Body(source.crate, source.path, item.name, owner, trait, head, code, around))

    def type_in(self, text: str, body: Body) -> Type | None:
        """The type that the text names, within the body."""
        bounds = dict(BOUND.findall(f"{body.around} {body.head}"))
        names = [bounds.get(it, body.owner if it == "Self" else it) for it in re.findall(r"\b[A-Z]\w*", text)]
        known = [it for it in names if it in self.types | self.traits]
        outer = next((it for it in names if it not in CLEAR), "")
        return Type(outer, known[0] if known else "") if names else None

    def type_of(self, expression: str, body: Body, depth: int = 0) -> Type | None:
        """The type of an expression that is a chain of calls and fields."""
        text = re.sub(r"^mut\b", "", re.sub(r"\s+", " ", expression).strip().lstrip("&*")).replace(" ", "")
        first = FIRST.match(text)
        if not first or depth > 6:
            return None
        path, name, at = [it for it in first[1].split("::") if it], first[2], first.end()
        if text[at : at + 1] == "(":
            found = self.type_of_call(path, name, text[at + 1 : behind(text, at) - 1], body, depth)
            at = behind(text, at)
        elif name == "self":
            found = Type(body.owner, body.owner)
        elif path or name[:1].isupper():
            return self.type_in(path[-1] if path else name, body)
        else:
            found = self.type_of_local(name, body, depth + 1)
        return self.type_after(found, text, at, body)

    def type_of_call(self, path: list[str], name: str, arguments: str, body: Body, depth: int) -> Type | None:
        if path and path[-1][:1].isupper():
            owner = body.owner if path[-1] == "Self" else path[-1]
            method = next(iter(self.methods(owner, name)), None)
            return self.type_in(method.returned, method) if method else self.type_in(owner, body)
        if name in ("Some", "Ok"):
            return self.type_of(arguments, body, depth + 1)
        calls = list(self.calls_of_free("", name, body))
        return self.type_in(calls[0].called.returned, calls[0].called) if len(calls) == 1 else None

    def type_after(self, found: Type | None, text: str, at: int, body: Body) -> Type | None:
        """The type behind the steps of a chain."""
        while found and at < len(text):
            step = STEP.match(text, at)
            if text[at] == "?":
                found, at = Type(found.inner or found.outer, found.inner), at + 1
            elif text[at] == "[":
                at = behind(text, at)
            elif not step:
                return found if text[at] in ";,)" else None
            elif text[step.end() : step.end() + 1] == "(":
                found, at = self.type_of_method(found, step[1]), behind(text, step.end())
            else:
                field = self.fields.get(found.inner, {}).get(step[1])
                found, at = self.type_in(field, body._replace(owner=found.inner)) if field else None, step.end()
        return found

    def type_of_method(self, of: Type, name: str) -> Type | None:
        """What a method gives. That of a type from elsewhere is taken to give what the type holds."""
        if of.outer != of.inner:
            return Type(of.inner, of.inner) if of.inner else None
        method = next(iter(self.methods(of.inner, name)), None)
        return self.type_in(method.returned, method) if method else of if name in ("clone", "as_ref") else None

    def type_of_local(self, name: str, body: Body, depth: int) -> Type | None:
        if found := re.search(
            rf"[(,]\s*(?:mut )?{name}\s*:\s*(?:&\s*)?(?:'\w+ )?(?:mut )?(?:impl )?([^,)]*)", body.signature
        ):
            return self.type_in(found[1], body)
        if found := re.search(rf"\blet (?:mut )?{name}\s*:\s*([^=;]*)=", body.code):
            return self.type_in(found[1], body)
        if found := re.search(rf"\blet (?:mut )?{name}\s*=\s*(?!match\b|if\b)([^;{{]*?)(?=;|\belse\b|\{{)", body.code):
            return self.type_of(found[1], body, depth)
        if found := re.search(rf"\blet (?:Some|Ok)\((?:mut )?{name}\)\s*=\s*([^;{{]*?)(?=;|\belse\b|\{{)", body.code):
            held = self.type_of(found[1], body, depth)
            return Type(held.inner, held.inner) if held and held.inner else None
        return None

    def methods(self, owner: str, name: str) -> list[Body]:
        """The methods of this name of a type, or of a trait and all that implements it."""
        return [it for it in self.named.get(name, []) if owner in (it.owner, it.trait if owner in self.traits else "-")]

    def calls_of_free(self, before: str, name: str, body: Body) -> Iterator[Call]:
        """What a call of a function names, behind a path or not."""
        path = [before] if before else self.uses[body.path].get(name, ["", name])[:-1]
        if path[-1] in self.below:
            # What a crate hands on from its modules.
            path = [path[-1], *self.uses.get(f"{path[-1]}/src/lib.rt", {}).get(name, [*path, name])[:-1]]
        free = [it for it in self.named.get(name, []) if not it.owner and it.crate in self.below[body.crate]]
        here = [it for it in free if it.path == body.path]
        far = [it for it in free if it.crate == (path[0] if path[0] in self.below else body.crate)]
        near = [it for it in far if path[-1] in (it.stem, it.crate)]
        chosen = here if not before and here else near or far or free
        yield from (Call(it, len(chosen) > 1) for it in chosen)

    @cache
    def calls(self, body: Body) -> list[Call]:
        return [call for found in NAME.finditer(body.code) for call in self.calls_at(found, body)]

    def calls_at(self, found: re.Match[str], body: Body) -> Iterator[Call]:
        """What a name in a body calls, or hands on as a function."""
        dot, before, name = found.groups()
        is_called = bool(ARGUMENTS.match(body.code, found.end()))
        if name in self.macros:
            yield Call(self.macros[name], False)
        if name not in self.named:
            return
        if dot:
            yield from self.calls_after_dot(found, body) if is_called else ()
        elif before and (before[:1].isupper()):
            of = self.type_in(before, body)
            yield from (Call(it, False) for it in (self.methods(of.outer, name) if of else []))
        elif before or is_called or re.search(r"[(,]\s*$", body.code[: found.start()]):
            yield from self.calls_of_free(before or "", name, body)

    def calls_after_dot(self, found: re.Match[str], body: Body) -> Iterator[Call]:
        name, of = found[3], self.type_of(receiver(body.code, found.start()), body)
        if of and (methods := self.methods(of.outer, name) or self.methods(of.inner, name)):
            # An `Option` of a type may have been taken apart by then, or have a method of the same name.
            guess = of.outer != of.inner and name in OF_STD
        elif not of or of.outer in self.types | self.traits:
            # A type may lend what another one has.
            methods = [
                it
                for it in self.named[name]
                if it.owner and (it.crate in self.below[body.crate] or it.trait in self.traits)
            ]
            guess = True
        else:
            return
        place = str(body), name
        if guess and place in self.meant:
            self.guessed.add(place)
            methods, guess = [it for it in methods if str(it) == self.meant[place]], False
        yield from (Call(it, guess) for it in methods)

    def reached(self, with_guesses: bool) -> dict[Body, Body]:
        """The bodies that run, each with one that calls it."""
        found, todo, seen = {self.main: self.main}, [self.main], set[str]()
        while todo:
            body = todo.pop()
            called = [it.called for it in self.calls(body) if with_guesses or not it.is_guess]
            new = set(re.findall(r"\b[A-Z]\w*", body.code + body.head)) - seen
            seen |= new
            called += [
                it
                for bodies in self.named.values()
                for it in bodies
                if it.owner in new and it.trait and it.trait not in self.traits
            ]
            for it in called:
                if it not in found:
                    found[it] = body
                    todo.append(it)
        return found


def within(top: str) -> set[str]:
    """A crate, and the crates that it may name, directly or not."""
    found, todo, known = set[str](), [top], crates()
    while todo:
        crate = todo.pop()
        if crate in known and crate not in found:
            found.add(crate)
            todo += known[crate]
    return found


def program_of(top: str, meant: Mapping[tuple[str, str], str]) -> Program:
    """The program of a crate, with all crates below it."""
    below = {crate: within(crate) for crate in within(top)}
    return Program(top, (it for crate in crates() if crate in below for it in sources_of(crate)), below, meant)
