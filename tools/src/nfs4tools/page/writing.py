"""A page as text, and as a file: page.html, with page.css, the scripts and the values in it. The values are JSON, which
is compressed and in base64: so 20,000 entries take about 1 MB, and browsers have what reads it."""
import base64
import html
import json
import sys
import zlib
from collections.abc import Iterator
from importlib.resources import files
from pathlib import Path
from typing import Any

from nfs4tools.page.data import TooLarge, page_values
from nfs4tools.runs.files import expect_names, reading_of
from nfs4tools.runs.selection import Selection

# The parts of the script, in their order. They are one module: what one part defines, those behind it use.
SCRIPTS = ["run.js", "selection.js", "scale.js", "lanes.js", "drawing.js", "details.js", "page.js"]
# The most bytes of a page.
LIMIT = 10_000_000
# So many entries are written at once.
PIECE = 1000


def page_text(values: dict[str, Any]) -> str:
    """The page that has these values."""
    parts = {
        "@TITLE@": html.escape(values["title"]),
        "@STYLE@": part("page.css"),
        "@SCRIPT@": "".join(map(part, SCRIPTS)),
        "@DATA@": packed(values),
    }
    text = part("page.html")
    for name, value in parts.items():
        text = text.replace(name, value, 1)
    return text


def part(name: str) -> str:
    return files(__package__).joinpath(name).read_text(encoding="utf-8")


def packed(values: dict[str, Any]) -> str:
    """The values as JSON, compressed, in base64. They are compressed piece by piece, as the whole text is long."""
    packing = zlib.compressobj()
    data = b"".join(packing.compress(piece.encode()) for piece in pieces(values))
    return base64.b64encode(data + packing.flush()).decode()


def pieces(values: dict[str, Any]) -> Iterator[str]:
    """JSON in pieces, of which each has at most some entries of a list."""
    for number, (name, value) in enumerate(values.items()):
        yield f"{',' if number else '{'}{json.dumps(name)}:"
        if not isinstance(value, list):
            yield written(value)
            continue
        for at in range(0, len(value), PIECE):
            yield ("," if at else "[") + written(value[at : at + PIECE])[1:-1]
        yield "]" if value else "[]"
    yield "}"


def written(value: Any) -> str:
    return json.dumps(value, separators=(",", ":"), ensure_ascii=False)


def write_page(path: str, target: str, selection: Selection) -> None:
    """Writes the page of a journal's file, or ends the program with what is wrong. The page of a run that ends by a
    fault has what is before it."""
    reading, pieces = reading_of(path, selection.last(), selection.first())
    growing = reading.growing
    if growing.entries == 0 and growing.fault is None and not growing.is_whole():
        print(f"fault: no page is written: {growing.ending()}", file=sys.stderr)
        sys.exit(2)
    run = reading.run_of(pieces)
    expect_names(selection, run.entries)
    try:
        values = page_values(run, Path(path).name, selection)
    except TooLarge as wrong:
        sys.exit(str(wrong))
    data = page_text(values).encode()
    if len(data) > LIMIT:
        sys.exit(f"fault: the page would have {len(data)} bytes, above {LIMIT}: --entries FROM-TO chooses some")
    try:
        Path(target).write_bytes(data)
    except OSError:
        sys.exit("fault: file not written")
    print(f"written: {len(values['rows'])} entries")
    tell_ending(values["end"])


def tell_ending(end: str | None) -> None:
    """Says how the run ends, if it is no whole journal."""
    sys.stdout.flush()
    if end is not None and end.startswith("fault"):
        sys.exit(end)
    if end is not None:
        print(end)
