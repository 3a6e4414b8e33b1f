"""Prints four numbers that say how large the repository is to its readers, each with its value at the last release:

- the calls from `serve_on` to GETATTR's rule, and the shared lines of GETATTR and of READ (tools/floors)
- the words of README, docs and the crates' pages
- the processor minutes of the gate, as the last run of tools/gate_costs from nothing had them

tools/dev/release_numbers.json keeps the values."""
import json
import os
from typing import Any

from dev.growth_counts import counts
from dev.pages import pages, words_of
from nfs4tools.processes import TOP

NUMBERS_FILE = os.path.join(TOP, "tools/dev/release_numbers.json")


def kept_numbers() -> Any:
    """What the file has: under `gate` what the gate took from nothing, under `release` the numbers of the last one."""
    with open(NUMBERS_FILE, encoding="utf-8") as file:
        return json.load(file)


def keep_numbers(name: str, numbers: dict[str, Any]) -> None:
    """Puts these in the place of those that the file has under the name."""
    whole = kept_numbers() | {name: numbers}
    with open(NUMBERS_FILE, "w", encoding="utf-8") as file:
        file.write(json.dumps(whole, indent=1) + "\n")


def numbers() -> dict[str, int]:
    found = {count.name: count.number for count in counts()}
    return {
        "calls from serve_on to GETATTR's rule": found["calls"],
        "shared lines of GETATTR": found["GETATTR"],
        "shared lines of READ": found["READ"],
        "words of pages": words_of(pages()),
        "processor minutes of the gate": kept_numbers()["gate"]["minutes"],
    }


def number_lines() -> list[str]:
    """A line for each, with what it was at the last release."""
    before = kept_numbers()["release"]
    return [
        f"{name}: {number:,} ({f'{before[name]:,} at the last release' if name in before else 'no release yet'})"
        for name, number in numbers().items()
    ]


def main() -> None:
    print(*number_lines(), sep="\n")
