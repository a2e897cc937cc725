"""Builds the package's wheel with Python's own library alone, so that `pip install ./tools` takes no other package and
no network. What it is called stands in pyproject.toml."""

import base64
import configparser
import hashlib
import pathlib
import zipfile
from typing import Optional

HERE = pathlib.Path(__file__).resolve().parent
SUFFIXES = (".py", ".html", ".css", ".js", ".typed")
WHEEL = "Wheel-Version: 1.0\nGenerator: victor\nRoot-Is-Purelib: true\nTag: py3-none-any\n"


def table(name: str) -> dict[str, str]:
    """The lines of a table of pyproject.toml."""
    settings = configparser.ConfigParser(strict=False)
    settings.read(HERE / "pyproject.toml", encoding="utf-8")
    return {key: value.strip('"') for key, value in settings[name].items()}


def contents(project: dict[str, str], info: str) -> dict[str, bytes]:
    """The files of the wheel by their names."""
    found = [path for path in sorted((HERE / "victor").rglob("*")) if path.suffix in SUFFIXES]
    files = {path.relative_to(HERE).as_posix(): path.read_bytes() for path in found}
    files["victor_check.py"] = (HERE / "check.py").read_bytes()
    metadata = {"Metadata-Version": "2.1", "Name": project["name"], "Version": project["version"]}
    metadata.update({"Summary": project["description"], "Requires-Python": project["requires-python"]})
    files[f"{info}/METADATA"] = "".join(f"{key}: {value}\n" for key, value in metadata.items()).encode()
    files[f"{info}/WHEEL"] = WHEEL.encode()
    scripts = "".join(f"{key} = {value}\n" for key, value in table("project.scripts").items())
    files[f"{info}/entry_points.txt"] = f"[console_scripts]\n{scripts}".encode()
    return files


def record_of(name: str, data: bytes) -> str:
    """The line of a file in the wheel's record."""
    made = base64.urlsafe_b64encode(hashlib.sha256(data).digest()).rstrip(b"=").decode()
    return f"{name},sha256={made},{len(data)}\n"


def build_wheel(folder: str, settings: Optional[dict[str, str]] = None, metadata: Optional[str] = None) -> str:
    """Writes the wheel into a folder, and gives its name: the call that PEP 517 asks for."""
    project = table("project")
    stem = f"{project['name'].replace('-', '_')}-{project['version']}"
    info = f"{stem}.dist-info"
    files = contents(project, info)
    record = "".join(record_of(name, data) for name, data in files.items())
    with zipfile.ZipFile(pathlib.Path(folder) / f"{stem}-py3-none-any.whl", "w", zipfile.ZIP_DEFLATED) as wheel:
        for name, data in files.items():
            wheel.writestr(name, data)
        wheel.writestr(f"{info}/RECORD", f"{record}{info}/RECORD,,\n")
    return f"{stem}-py3-none-any.whl"
