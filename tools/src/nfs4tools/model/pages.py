"""READs and WRITEs by pages: pieces of 4,096 bytes, by which a server may keep its files. The model has none. These are
what random calls choose to meet the ends of pages, and the count of how often they come to each case that a server with
pages may have."""
from collections import Counter
from typing import Any

PAGE = 4096

# How many bytes are read or written, where that is chosen by pages.
LENGTHS = [1, 2, PAGE // 2, PAGE - 1, PAGE, PAGE, PAGE + 1, 2 * PAGE]

# The cases: how the bytes of a READ or a WRITE lie.
WITHIN = "within a page"
WHOLE = "of whole pages"
ACROSS_TWO = "across two pages"
ACROSS_MANY = "across many pages"
# How many whole pages there are between a file's end and what is written after it.
GAPS = "gaps of no whole page", "gaps of one whole page", "gaps of many whole pages"
# Pages that are written in a part, of which there are bytes in an answer, or all in a WRITE.
ANSWERED, BROUGHT = "pages written that an answer has", "pages written that a WRITE brought"
WAYS = [f"{operation} {way}" for operation in ("READs", "WRITEs") for way in (WITHIN, WHOLE, ACROSS_TWO, ACROSS_MANY)]
CASES = [*WAYS, *GAPS, ANSWERED, BROUGHT]
# Those of a size that is set: where the file ends then that is cut, and how far one goes on that becomes longer; and
# last pages that are cut or become longer while an answer has bytes of them, or a WRITE brought them whole.
CUT_WITHIN, CUT_AT, CUT_ALL = "sizes that cut within a page", "sizes that cut at a page", "sizes that cut to nothing"
LONGER_WITHIN, LONGER_BY_PAGES = "sizes that go on within a page", "sizes that go on into further pages"
CUT_HAD, LONGER_HAD = "last pages cut that something else has", "last pages longer that something else has"
CUTS = [CUT_WITHIN, CUT_AT, CUT_ALL, LONGER_WITHIN, LONGER_BY_PAGES, CUT_HAD, LONGER_HAD]


def pages_of(begin: int, end: int) -> range:
    """The numbers of the pages that have these bytes, of which there are some."""
    return range(begin // PAGE, (end - 1) // PAGE + 1)


def way_of(begin: int, end: int) -> str:
    if begin % PAGE == end % PAGE == 0:
        return WHOLE
    return {1: WITHIN, 2: ACROSS_TWO}.get(len(pages_of(begin, end)), ACROSS_MANY)


def gap_of(size: int, begin: int) -> str:
    return GAPS[min(max(begin // PAGE - -(-size // PAGE), 0), 2)]


def cut_of(size: int) -> str:
    """How a file is cut that has so many bytes then."""
    if size == 0:
        return CUT_ALL
    return CUT_WITHIN if size % PAGE else CUT_AT


class Pages:
    """Counts the cases that the READs, WRITEs and SETATTRs of a run come to."""

    def __init__(self, counts: Counter[Any]) -> None:
        # By file and number: what has bytes of a page that wasn't written since.
        self.counts = counts
        self.had: dict[tuple[int, int], str] = {}

    def read(self, file: int, begin: int, end: int) -> None:
        """These bytes are answered."""
        if begin < end:
            self.counts[f"READs {way_of(begin, end)}"] += 1
            self.had.update(((file, page), ANSWERED) for page in pages_of(begin, end))

    def resize(self, file: int, before: int, size: int) -> None:
        """A file that had so many bytes has this size. Its page that is cut, or the last one that it had, may be in a
        part what something else has; those behind the end aren't there any more."""
        last = min(before, size)
        has_last = last % PAGE > 0 and (file, last // PAGE) in self.had
        if size < before:
            self.counts.update([cut_of(size)] + [CUT_HAD] * has_last)
            self.had = {key: what for key, what in self.had.items() if key[0] != file or key[1] * PAGE < size}
        elif size > before:
            is_within = pages_of(0, size) == pages_of(0, max(before, 1))
            self.counts.update([LONGER_WITHIN if is_within else LONGER_BY_PAGES] + [LONGER_HAD] * has_last)
            self.had.pop((file, before // PAGE), None)

    def write(self, file: int, size: int, begin: int, end: int) -> None:
        """These bytes are written into a file of this size."""
        if begin == end:
            return
        self.counts[f"WRITEs {way_of(begin, end)}"] += 1
        if begin > size:
            self.counts[gap_of(size, begin)] += 1
        for page in pages_of(begin, end):
            is_whole, what = begin <= page * PAGE and (page + 1) * PAGE <= end, self.had.pop((file, page), None)
            if is_whole:
                self.had[file, page] = BROUGHT
            elif what is not None:
                self.counts[what] += 1
