"""The model's ranges beside plain lists, one place a byte.

The lists have the first and the last few bytes, and one place for all bytes between, which no range divides. After each
random change every question is asked of both. It judges ranges.py alone, no program."""
import random

import pytest

from nfs4tools.model.ranges import (
    ALL_ONES,
    LAST_BYTE,
    READ_MODE,
    Ranges,
    WRITE_MODE,
    denial,
    length_of,
    meets,
    range_of,
)

pytestmark = pytest.mark.quick

SIDE = 12
# The byte at each place of a list; the place in the middle has all bytes between its neighbours.
BYTES = [*range(SIDE), SIDE, *range(LAST_BYTE - SIDE + 1, LAST_BYTE + 1)]
ENDS = [*range(SIDE), LAST_BYTE - SIDE, *range(LAST_BYTE - SIDE + 1, LAST_BYTE + 1)]
PLACES = range(len(BYTES))
# How many changes a case makes.
CHANGES = 5000


def bytes_of(offset, length):
    """The places of a range's bytes, or None where there is no such range: each byte asked alone."""
    if length == 0 or (length != ALL_ONES and offset + length > 2**64 - 1):
        return None
    end = 2**64 if length == ALL_ONES else offset + length
    return [place for place in PLACES if offset <= BYTES[place] and ENDS[place] < end]


def run_round(modes, place):
    """The longest stretch of one mode round this place."""
    first = last = place
    while first > 0 and modes[first - 1] == modes[place]:
        first -= 1
    while last + 1 < len(modes) and modes[last + 1] == modes[place]:
        last += 1
    return BYTES[first], ENDS[last], modes[place]


def runs(modes):
    """Places that are held and begin a stretch."""
    return sum(modes[place] is not None and (place == 0 or modes[place - 1] != modes[place]) for place in PLACES)


def report(lists, places, mode):
    """The least byte with a conflict, the least owner in conflict there, and its stretch."""
    for place in places:
        owners = [owner for owner in sorted(lists) if meets(lists[owner][place], mode)]
        if owners:
            return owners[0], run_round(lists[owners[0]], place)
    return None


def random_range(chance):
    """An offset and a length whose ends are no byte of the middle."""
    first, last = sorted((chance.choice(PLACES), chance.choice(PLACES)))
    length = length_of(BYTES[first], ENDS[last])
    if last == len(PLACES) - 1 and chance.random() < 0.3:
        length = LAST_BYTE - BYTES[first] + 1
    return BYTES[first], chance.choice([length] * 12 + [0, ALL_ONES, ALL_ONES - 1])


def expect_alike(held, lists, owner, asked, mode):
    """Each question about the owner's ranges and the range asked has one answer in both forms."""
    first, last = asked[0], asked[1]
    places = bytes_of(first, length_of(first, last))
    ranges, modes = held[owner], lists[owner]
    pairs = [(ranges.runs(), runs(modes)), (ranges.is_empty(), not any(modes))]
    pairs += [(ranges.mode(BYTES[place]), modes[place]) for place in PLACES]
    pairs += [(tuple(ranges.run_at(BYTES[place])), run_round(modes, place)) for place in PLACES]
    conflict = [BYTES[place] for place in places if meets(modes[place], mode)]
    pairs.append((ranges.first_conflict(first, last, mode), conflict[0] if conflict else None))
    others = {other: held[other] for other in held if other != owner}
    found = denial(list(others.items()), first, last, mode)
    reported = None if found is None else (found.owner, tuple(found.run))
    pairs.append((reported, report({other: lists[other] for other in others}, places, mode)))
    assert all(one == other for one, other in pairs), f"{owner} {asked} {mode}: {ranges.__dict__}, {modes}"


@pytest.mark.parametrize("seed", range(4))
def test_changes(seed, add_up):
    chance = random.Random(seed)
    held = {owner: Ranges() for owner in "xyz"}
    lists = {owner: [None] * len(BYTES) for owner in held}
    made = 0
    for change in range(CHANGES):
        offset, length = random_range(chance)
        asked, places = range_of(offset, length), bytes_of(offset, length)
        # Where the end of a range is inside the middle, the lists can't say which of its bytes are meant.
        is_inside = asked is not None and SIDE <= asked[1] < LAST_BYTE - SIDE
        assert (asked is None) == (places is None), f"change {change}: a range of {offset} and {length}: {asked}"
        if asked is None or is_inside:
            continue
        owner, mode = chance.choice("xyz"), chance.choice([READ_MODE, WRITE_MODE, None, None])
        held[owner] = held[owner].changed(*asked, mode)
        for place in places:
            lists[owner][place] = mode  # type: ignore[call-overload]
        expect_alike(held, lists, owner, asked, chance.choice([READ_MODE, WRITE_MODE]))
        made += 1
    assert made > CHANGES // 2, "too few changes are compared"
    add_up(made, "changes")
