"""Replies beside the replies that are wanted."""
from collections.abc import Iterator


def words(data: bytes) -> list[str]:
    return [data[at : at + 4].hex() for at in range(0, len(data), 4)]


def words_beside(wanted: bytes, got: bytes, whose: str) -> Iterator[str]:
    """Lines with the words round the first difference, or the last ones where there is none. Word 0 is the header of
    the first fragment."""
    left, right = words(wanted), words(got)
    count = max(len(left), len(right))
    left, right = left + [""] * (count - len(left)), right + [""] * (count - len(right))
    first = next((place for place in range(count) if left[place] != right[place]), count)
    yield f"      word  wanted    {whose}"
    for place in range(max(0, first - 20), min(count, first + 20)):
        mark = "" if left[place] == right[place] else "  <--"
        yield f"    {place:>6}  {left[place]:<8}  {right[place]:<8}{mark}"
