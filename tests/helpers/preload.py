"""Libraries that are loaded into a program before its own (LD_PRELOAD), to have a call of the system go otherwise."""
import os
import subprocess


def preloading(source: str, folder: str, **variables: str) -> dict[str, str]:
    """The environment in which a library made of this C file is loaded, with these variables. The library is put into
    the folder."""
    library = os.path.join(folder, os.path.basename(source) + ".so")
    subprocess.run([os.environ.get("CC", "cc"), "-O1", "-shared", "-fPIC", "-o", library, source, "-ldl"], check=True)
    return {**os.environ, "LD_PRELOAD": library, **variables}


def is_loaded(pid: int, environment: dict[str, str]) -> bool:
    """Whether the library of this environment is in the process: without it a test would pass that shows nothing."""
    with open(f"/proc/{pid}/maps", encoding="utf-8") as maps:
        return environment.get("LD_PRELOAD", "no library is named") in maps.read()
