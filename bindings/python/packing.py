"""Makes the package's wheel, with the shared library in it: an installation needs nothing else. This needs Python alone, and makes the
same bytes of the same files.

pip calls it where it installs this folder (PEP 517, pyproject.toml). By itself: ``python3 packing.py FOLDER`` makes the wheel there. The
library is the one that the package would load (zelamiku/library.py): that of ``ZELAMIKU_LIBS``, the package's own folder, or pkg-config's.
There is no source archive.
"""
from __future__ import annotations

import base64
import hashlib
import os
import re
import sys
import time
import tomllib
import zipfile
from pathlib import Path
from typing import Any

sys.path.insert(0, str(Path(__file__).parent))
from zelamiku.library import CURE, NAME, places  # noqa: E402

PACKAGE = Path(__file__).with_name("zelamiku")


def _library() -> bytes:
    for path in places():
        if path.is_file():
            return path.read_bytes()
    raise FileNotFoundError(f"there is no {NAME}: {CURE}")


def _platform(library: bytes) -> str:
    """The oldest system that has the functions of the C library which the shared object asks for, by their versions."""
    asked = [int(number) for number in re.findall(rb"\0GLIBC_2\.(\d+)", library)]
    return f"manylinux_2_{max(asked, default=17)}_x86_64"


def _metadata(project: dict[str, Any]) -> str:
    lines = ["Metadata-Version: 2.1", f"Name: {project['name']}", f"Version: {project['version']}", f"Summary: {project['description']}"]
    lines += [f"Requires-Python: {project['requires-python']}", *(f"Classifier: {each}" for each in project["classifiers"])]
    return "\n".join(lines) + "\n"


def _record(files: dict[str, bytes], own: str) -> bytes:
    lines = []
    for name, content in files.items():
        digest = base64.urlsafe_b64encode(hashlib.sha256(content).digest()).rstrip(b"=").decode()
        lines.append(f"{name},sha256={digest},{len(content)}\n")
    return ("".join(lines) + f"{own},,\n").encode()


def build_wheel(wheel_directory: str, config_settings: object = None, metadata_directory: str | None = None) -> str:
    """Writes the wheel, and returns its name."""
    project = tomllib.loads(Path(__file__).with_name("pyproject.toml").read_text(encoding="utf-8"))["project"]
    library = _library()
    tag = f"py3-none-{_platform(library)}"
    title = f"{project['name']}-{project['version']}"
    files = {f"zelamiku/{path.name}": path.read_bytes() for path in sorted(PACKAGE.iterdir()) if path.suffix in (".py", ".typed")}
    files[f"zelamiku/{NAME}"] = library
    files[f"{title}.dist-info/METADATA"] = _metadata(project).encode()
    files[f"{title}.dist-info/WHEEL"] = f"Wheel-Version: 1.0\nGenerator: zelamiku\nRoot-Is-Purelib: false\nTag: {tag}\n".encode()
    own = f"{title}.dist-info/RECORD"
    files[own] = _record(files, own)
    name = f"{title}-{tag}.whl"
    # A zip has no times before 1980.
    when = time.gmtime(max(int(os.environ.get("SOURCE_DATE_EPOCH", 0)), 315532800))[:6]
    with zipfile.ZipFile(Path(wheel_directory, name), "w", zipfile.ZIP_DEFLATED) as wheel:
        for path, content in files.items():
            entry = zipfile.ZipInfo(path, when)
            entry.compress_type = zipfile.ZIP_DEFLATED
            entry.external_attr = 0o100644 << 16
            wheel.writestr(entry, content)
    return name


if __name__ == "__main__":
    if len(sys.argv) != 2 or sys.argv[1].startswith("-"):
        sys.exit(__doc__)
    Path(sys.argv[1]).mkdir(parents=True, exist_ok=True)
    print(build_wheel(sys.argv[1]))
