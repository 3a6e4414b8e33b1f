"""Counts the instructions of a program by valgrind's callgrind, between two moments of its run."""
import re
import subprocess
from collections.abc import Callable

from bench.script import said_by


class Callgrind:
    """Counts only what is to be counted: so the rest takes less time. Its files are in this folder, and the words are
    those before the program's."""

    def __init__(self, folder: str) -> None:
        self.folder, self.count = folder, 0
        self.words = [
            "valgrind",
            "--tool=callgrind",
            "--instr-atstart=no",
            f"--callgrind-out-file={folder}/counts",
            f"--log-file={folder}/log",
        ]

    def instructions(self, process: subprocess.Popen[bytes], task: Callable[[], None]) -> int:
        """How many the process takes for this."""

        def command(*words: str) -> None:
            said_by(["vgdb", f"--pid={process.pid}", *words], "vgdb")

        command("instrumentation", "on")
        task()
        command("dump")
        command("instrumentation", "off")
        self.count += 1
        with open(f"{self.folder}/counts.{self.count}", encoding="utf-8") as source:
            return int(re.findall(r"^totals: (\d+)", source.read(), re.MULTILINE)[0])
