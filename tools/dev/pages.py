"""What the pages say that can be looked up: README.md, docs/*.md, and the README.md of each folder in crates and tools,
and of tools.

Links lead to what is there, and their anchors to headings. Those to other machines aren't tried.

Paths, in backticks or in a block of code, are words with a `/` that begin with a folder of the top, a crate, a folder
of tools, or tests, src, specs, proofs or mutants; and those that end with .rt, .antt, .py or .edit. Each is the path of
a file or folder, or the end of one. NAME, FILE, CRATE and `*` stand for any name. What is in a folder `out` isn't
looked for.

Names stand in backticks, with nothing beside. Of `Core::apply` the last two are a type or trait with its function, a
file or a crate with its, or an enumeration with its variant. A name with a capital and a small letter is defined in the
sources, or imported there from elsewhere. So is one with an underscore, but on the pages for whoever writes a client,
which name functions of other programs; and a word of small letters on those that say where something is to be changed.
Elsewhere that may be a word of anything, and words of capitals are the protocol's.

Options stand in a line behind commands of this repository, of which one takes them: by tests/program/help*.txt for
`nfs4state`; behind `--serve` of `./start` the server takes them, too; where it is Python, by the texts in its module
that are an option and in no list, where those for other programs are, and by the calls of `add_argument` in what it
imports; by any place in its text where it isn't. An option by itself in backticks is one of `nfs4state` or of a command
that the page names, or stands there behind a command of others."""
import ast
import os
import re
import subprocess
from collections.abc import Iterable, Iterator
from functools import cache
from modulefinder import ModuleFinder

from dev.clause_index import crates, functions_of, items_in, sources_of
from nfs4tools.processes import TOP

PAGE = re.compile(r"README\.md|docs/\w+\.md|(?:crates|tools)/\w+/README\.md|tools/README\.md")
FOR_CLIENTS = re.compile(r"README\.md|docs/(?:CLIENTS|PROGRAM|RULES|JOURNAL)\.md|crates/rows/README\.md")
FOR_CHANGES = re.compile(r"docs/(?:MAP|CONTRIBUTING)\.md|crates/(?!rows/)\w+/README\.md")

BLOCK = re.compile(r"^```.*?^```|^    [^\n]*$", re.M | re.S)
SPAN = re.compile(r"`([^`]+)`")
LINK = re.compile(r"\[[^\]]*\]\(([^)\s]+)\)")
# Words of a command, and what stands between commands.
WORD = re.compile(r"[|;&()]+|(?:\{[^}\s]*\}|[^\s'\"<>,|;&()])+")
PARTING = re.compile(r"[|;&()]|--$|\$$")
NAME = re.compile(r"&?(\w+(?:::\w+)*)(?:\(\)|!)?")
OPTION = re.compile(r"--[a-z][a-z-]*")
PARTS = {"crates", "tools", "tests", "docs", "samples", ".ci", "src", "specs", "proofs", "mutants"}
# Where the packages of Python are.
PACKAGES = ["tools/src", "tools", "tests"]
ENDING = r"\w\.(?:rt|antt|py|edit)$"
PROGRAM, COMMANDS = "nfs4state", {"once", "serve", "audit"}
START, MODEL_SERVER = "start", "tools/model/serve.py"
EACH_COMMAND = {PROGRAM, *(f"{PROGRAM} {command}" for command in COMMANDS)}
KEYWORDS = {"fn", "ghost", "impl", "mod", "pub", "use"}

# What defines names: the first word in brackets that is found. Of fields and variants it is the beginning of a line.
DEFINED = {
    "rt": re.compile(
        r"\b(?:fn|struct|enum|trait|type|const|static|mod|macro_rules!)\s+(\w+)"
        r"|\b(?:requires|ensures)\*?\s+(\w+)\s*\{|\bghost\s+(\w+)\s*[:=]"
        r"|^\s+(?:pub(?:\([\w ]+\))?\s+)?(\w+)(?:,$|\(|:\s|\s=\s|\s\{$)",
        re.M,
    ),
    "antt": re.compile(
        r"^\s*(?:(?:abbrev|unfoldable|pub|record|data)\s+)*([^\s:(){}]+)\s*(?::(?!:)|where|$)"
        r"|\|\s*(?:pub )?(\w+)\s*:",
        re.M,
    ),
    "py": re.compile(r"\b(?:def|class)\s+(\w+)|^\s*(\w+)(?:,\s*\w+)*\s*(?::[^=\n]+)?=", re.M),
}
USED = re.compile(r"\buse\s+([^;\n]*)")


@cache
def files() -> list[str]:
    """The files that git knows, which may have been added and not committed yet."""
    listed = subprocess.run(["git", "-C", TOP, "ls-files"], stdout=subprocess.PIPE, check=True, text=True).stdout
    return [path for path in listed.splitlines() if os.path.isfile(os.path.join(TOP, path))]


@cache
def read(path: str) -> str:
    with open(os.path.join(TOP, path), encoding="utf-8", errors="replace") as file:
        return file.read()


def is_python(path: str) -> bool:
    return path.endswith(".py") or read(path).startswith("#!/usr/bin/env python3\n")


def module_of(command: str) -> str:
    """The module whose `main` a command of tools in Python runs."""
    found = re.search(r"^from ((?:nfs4tools|dev|bench)[\w.]+) import main$", read(command), re.M)
    if not found:
        return command
    folder = "tools/src" if found[1].startswith("nfs4tools.") else "tools"
    return f"{folder}/{found[1].replace('.', '/')}.py"


def with_imported(path: str) -> set[str]:
    """A file of Python, and those of this repository that it imports, directly or not."""
    finder = ModuleFinder([os.path.join(TOP, it) for it in PACKAGES])
    finder.run_script(os.path.join(TOP, path))
    files = [getattr(module, "__file__", None) for module in finder.modules.values()]
    return {os.path.relpath(file, TOP) for file in files if file}


class Page:
    """A page: its blocks of code apart from what stands between them."""

    def __init__(self, path: str, text: str) -> None:
        self.path, self.text = path, text
        self.prose = BLOCK.sub(lambda found: re.sub(r"[^\n]", " ", found[0]), text)
        self.spans = [(self.line(found.start()), " ".join(found[1].split())) for found in SPAN.finditer(self.prose)]
        self.commands = [
            (self.line(found.start()) + at, line.strip())
            for found in BLOCK.finditer(text)
            for at, line in enumerate(found[0].split("\n"))
        ]

    def line(self, at: int) -> int:
        return self.text.count("\n", 0, at) + 1

    def anchors(self) -> set[str]:
        """What leads to its headings, as GitHub has it."""
        headings = re.findall(r"^#+ (.*)$", self.prose, re.M)
        return {re.sub(r"[^\w\- ]", "", heading.lower()).replace(" ", "-") for heading in headings}


class Sources:
    """What there is to be named: files and folders, definitions, and commands with their options."""

    def __init__(self) -> None:
        folders = {path[: at.start()] for path in files() for at in re.finditer("/", path)}
        self.paths = [*files(), *folders]
        self.ends = {path[at:] for path in self.paths for at in (0, *(it.end() for it in re.finditer("/", path)))}
        self.parts = PARTS | {path.split("/")[1] for path in folders if re.match(r"(?:crates|tools)/", path)}
        self.names, self.pairs = self.parts | KEYWORDS, set[tuple[str, str]]()
        self.tools: dict[str, str] = {}
        for path in files():
            self.take(path)
        for source in (source for crate in crates() for source in sources_of(crate)):
            for function in functions_of(source):
                owners = function.owner, source.file.stem, source.crate
                self.pairs |= {(owner, function.name) for owner in owners}
            for item in items_in(source.code, 0, len(source.code)):
                variants = re.findall(r"^ {4}(\w+)", source.code[item.block : item.end], re.M)
                self.pairs |= {(item.name, variant) for variant in variants if item.kind == "enum"}

    def take(self, path: str) -> None:
        """The names that the file defines or imports, and the commands that it is."""
        self.names.update((os.path.basename(path).partition(".")[0], os.path.basename(path)))
        kind = "py" if is_python(path) else path.rpartition(".")[2]
        if kind in DEFINED:
            text = read(path)
            self.names.update(name for found in DEFINED[kind].finditer(text) for name in found.groups() if name)
            self.names.update(name for used in USED.findall(text) for name in re.findall(r"\w+", used))
        if path.startswith("tools/") and (path.endswith(".rs") or os.access(os.path.join(TOP, path), os.X_OK)):
            self.tools[path] = self.tools[os.path.basename(path)] = path
        if path == START:
            self.tools[f"./{path}"] = path

    @cache
    def own_options(self, command: str) -> set[str]:
        if command.startswith(PROGRAM):
            return set(OPTION.findall(read(f"tests/program/help{command.removeprefix(PROGRAM).replace(' ', '_')}.txt")))
        if not is_python(command):
            # A program in Rust has files beside it.
            texts = [path for path in files() if path.startswith(os.path.dirname(command))]
            return set(OPTION.findall("\n".join(map(read, texts if command.endswith(".rs") else [command]))))
        nodes = list(ast.walk(ast.parse(read(module_of(command)))))
        listed = {it for node in nodes if isinstance(node, ast.List) for it in node.elts}
        words = [node.value for node in nodes if isinstance(node, ast.Constant) and node not in listed]
        return {"--help"} | {word for word in words if isinstance(word, str) and OPTION.fullmatch(word)}

    @cache
    def added_options(self, command: str) -> set[str]:
        """Those that a command in Python has from what it imports."""
        texts = map(read, with_imported(module_of(command))) if command in files() and is_python(command) else ()
        return set(re.findall(r'add_argument\(\s*"(--[a-z-]+)"', "\n".join(texts)))

    def takes(self, commands: Iterable[str], option: str) -> bool:
        return any(
            option in options(command) for options in (self.own_options, self.added_options) for command in commands
        )

    def has_path(self, word: str) -> bool:
        """Whether the word is no path, or there is one that ends so."""
        word = word.rstrip(".,:/")
        parts = word.split("/")
        is_path = len(parts) > 1 and parts[0] in self.parts or re.search(ENDING, word)
        if not is_path or ".." in parts or "out" in parts or word in self.ends:
            return True
        if braces := re.search(r"\{(.*?)\}", word):
            return all(self.has_path(word.replace(braces[0], one, 1)) for one in braces[1].split(","))
        pattern = re.sub(r"\\\*|\b(?:NAME|FILE|CRATE)\b", "[^/]*", re.escape(word))
        return pattern != re.escape(word) and any(re.search(f"(?:^|/){pattern}$", path) for path in self.paths)

    def has_name(self, page: str, name: str) -> bool:
        """Whether the name is none that has to be there on this page, or it is."""
        *owners, last = name.split("::")
        if owners:
            return (owners[-1], last) in self.pairs
        is_small = name == name.lower() and not re.match(r"\d", name)
        is_decided = (
            re.search("[A-Z].*[a-z]", name)
            or is_small
            and FOR_CHANGES.fullmatch(page)
            or is_small
            and "_" in name
            and not FOR_CLIENTS.fullmatch(page)
        )
        return not is_decided or name in self.names

    def named_by(self, line: str) -> Iterator[tuple[list[str], str]]:
        """For each word of a line the commands that stand there up to it, and the option that it is, or nothing."""
        commands, is_first = list[str](), True
        for word in WORD.findall(line):
            if PARTING.match(word):
                commands, is_first = [], True
                continue
            if word.rpartition("/")[2] == PROGRAM:
                commands.append(PROGRAM)
            elif word in COMMANDS and (is_first or commands[-1:] == [PROGRAM]):
                commands[-1:] = [f"{PROGRAM} {word}"]
            elif word in self.tools and (is_first or "/" in word):
                commands.append(self.tools[word])
            is_first = False
            if word == "--serve" and commands[-1:] == [START]:
                # What follows are options of the server.
                commands += [f"{PROGRAM} serve", MODEL_SERVER]
            found = OPTION.match(word)
            yield [*commands], found[0] if found else ""


def wrong_links(page: Page) -> Iterator[tuple[int, str]]:
    for found in LINK.finditer(page.prose):
        target, _, anchor = found[1].partition("#")
        if ":" in target:
            continue
        path = os.path.normpath(os.path.join(os.path.dirname(page.path), target)) if target else page.path
        if not os.path.exists(os.path.join(TOP, path)):
            yield page.line(found.start()), f"a link to {found[1]}, which isn't there"
        elif anchor and anchor not in (page if path == page.path else Page(path, read(path))).anchors():
            yield page.line(found.start()), f"a link to {found[1]}, and there is no such heading"


def wrong_names(page: Page, sources: Sources) -> Iterator[tuple[int, str]]:
    for line, text in page.spans + page.commands:
        for word in WORD.findall(text):
            if not sources.has_path(word):
                yield line, f"the path {word}"
    for line, text in page.spans:
        found = NAME.fullmatch(text)
        if found and not sources.has_name(page.path, found[1]):
            yield line, f"the name {text}"


def wrong_options(page: Page, sources: Sources) -> Iterator[tuple[int, str]]:
    beside = [
        (line, *named)
        for line, text in page.spans + page.commands
        if not OPTION.match(text)
        for named in sources.named_by(text)
    ]
    others = {option for _, commands, option in beside if not commands}
    named = {command for _, commands, _ in beside for command in commands}.union(EACH_COMMAND)
    for line, commands, option in beside:
        if commands and option and not sources.takes(commands, option):
            yield line, f"the option {option} of {commands[-1]}"
    for line, text in page.spans:
        found = OPTION.match(text)
        if found and found[0] not in others and not sources.takes(named, found[0]):
            yield line, f"the option {found[0]}"


def faults_of(page: Page, sources: Sources) -> list[str]:
    """What the page names, and isn't there."""
    wrong = [*wrong_links(page), *wrong_names(page, sources), *wrong_options(page, sources)]
    return [f"{page.path}:{line}: {fault}" for line, fault in sorted(wrong)]


def pages() -> list[Page]:
    return [Page(path, read(path)) for path in files() if PAGE.fullmatch(path)]


def helps() -> dict[str, str]:
    """The help of each command in Python, without that of its options: what its module begins with."""
    commands = [
        path
        for path in files()
        if path.startswith("tools/") and is_python(path) and os.access(os.path.join(TOP, path), os.X_OK)
    ]
    return {path: ast.get_docstring(ast.parse(read(path))) or "" for path in map(module_of, commands)}


def words_of(found: list[Page]) -> int:
    """The words of all pages but those of tools."""
    return sum(len(page.text.split()) for page in found if not page.path.startswith("tools/"))
