"""Makes the wheel of nfs4tools for `pip install`, with the standard library alone: so it needs no network (PEP 517)."""
import tomllib
import zipfile
from pathlib import Path
from typing import Any

TOP = Path(__file__).resolve().parent.parent.parent
SOURCES = TOP / "tools/src"
SUFFIXES = ".py", ".pyi", ".html", ".css", ".js"
WHEEL = "Wheel-Version: 1.0\nGenerator: nfs4tools\nRoot-Is-Purelib: true\nTag: py3-none-any\n"


def write_wheel(folder: str, files: dict[str, bytes]) -> str:
    """Writes a wheel with these files beside the package's metadata: its name."""
    project = tomllib.loads((TOP / "pyproject.toml").read_text(encoding="utf-8"))["project"]
    stem = f"{project['name']}-{project['version']}"
    scripts = "".join(f"{name} = {place}\n" for name, place in project["scripts"].items())
    metadata = (
        f"Metadata-Version: 2.1\nName: {project['name']}\nVersion: {project['version']}\n"
        f"Summary: {project['description']}\nRequires-Python: {project['requires-python']}\n"
    )
    inside = files | {
        f"{stem}.dist-info/{name}": text.encode()
        for name, text in (
            ("METADATA", metadata),
            ("WHEEL", WHEEL),
            ("entry_points.txt", f"[console_scripts]\n{scripts}"),
        )
    }
    record = f"{stem}.dist-info/RECORD"
    listed = "".join(f"{path},,\n" for path in [*inside, record])
    with zipfile.ZipFile(Path(folder, f"{stem}-py3-none-any.whl"), "w") as wheel:
        for path, data in [*inside.items(), (record, listed.encode())]:
            wheel.writestr(zipfile.ZipInfo(path), data, zipfile.ZIP_DEFLATED)
    return f"{stem}-py3-none-any.whl"


def build_wheel(folder: str, _settings: Any = None, _metadata: Any = None) -> str:
    """The package, as it is in the sources."""
    paths = sorted(path for path in SOURCES.rglob("*") if path.suffix in SUFFIXES or path.name == "py.typed")
    return write_wheel(folder, {path.relative_to(SOURCES).as_posix(): path.read_bytes() for path in paths})


def build_editable(folder: str, _settings: Any = None, _metadata: Any = None) -> str:
    """A package that leads to the sources, for `pip install -e`."""
    return write_wheel(folder, {"nfs4tools.pth": f"{SOURCES}\n".encode()})
