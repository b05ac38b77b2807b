"""Builds the package for pip with stock Python alone, so that `pip install ./python` needs no network: a wheel is a zip
of the modules with three files that describe it."""
from __future__ import annotations

import base64
import hashlib
import re
import tarfile
import zipfile
from collections.abc import Mapping
from pathlib import Path

HERE = Path(__file__).parent
NAME = "paver"
VERSION = re.findall(r'VERSION = "([^"]+)"', (HERE / NAME / "version.py").read_text())[0]
ABOUT = f"{NAME}-{VERSION}.dist-info"
METADATA = f"""Metadata-Version: 2.1
Name: {NAME}
Version: {VERSION}
Summary: Runs the interval paver, reads its pavings exactly, and helps to write its systems
Requires-Python: >=3.8
Provides-Extra: plots
Requires-Dist: matplotlib; extra == "plots"
"""
WHEEL = "Wheel-Version: 1.0\nGenerator: wheel_of_package\nRoot-Is-Purelib: true\nTag: py3-none-any\n"
SCRIPTS = "[console_scripts]\npaver-tools = paver.__main__:main\n"


def modules() -> list[Path]:
    """The modules, the sign that they are typed, and the parts of the page that the viewer is."""
    endings = (".py", ".typed", ".js", ".css", ".html")
    return sorted(path for path in (HERE / NAME).rglob("*") if path.suffix in endings)


def build_wheel(wheel_directory: str, config_settings: Mapping[str, object] | None = None, metadata_directory: str | None = None
                ) -> str:
    """Writes the wheel into a folder and gives its name."""
    files = {path.relative_to(HERE).as_posix(): path.read_bytes() for path in modules()}
    files[f"{ABOUT}/METADATA"] = METADATA.encode()
    files[f"{ABOUT}/WHEEL"] = WHEEL.encode()
    files[f"{ABOUT}/entry_points.txt"] = SCRIPTS.encode()
    lines = []
    for name, data in files.items():
        digest = base64.urlsafe_b64encode(hashlib.sha256(data).digest()).rstrip(b"=").decode()
        lines.append(f"{name},sha256={digest},{len(data)}\n")
    files[f"{ABOUT}/RECORD"] = ("".join(lines) + f"{ABOUT}/RECORD,,\n").encode()
    name = f"{NAME}-{VERSION}-py3-none-any.whl"
    with zipfile.ZipFile(Path(wheel_directory) / name, "w", zipfile.ZIP_DEFLATED) as wheel:
        for file, data in files.items():
            wheel.writestr(file, data)
    return name


def build_sdist(sdist_directory: str, config_settings: Mapping[str, object] | None = None) -> str:
    """Writes the sources into a folder and gives their name."""
    name = f"{NAME}-{VERSION}.tar.gz"
    with tarfile.open(Path(sdist_directory) / name, "w:gz") as sources:
        for path in [*modules(), HERE / "pyproject.toml", HERE / "wheel_of_package.py", HERE / "README.md"]:
            sources.add(path, f"{NAME}-{VERSION}/{path.relative_to(HERE)}")
    return name
