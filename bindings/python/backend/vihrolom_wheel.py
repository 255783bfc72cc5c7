"""Makes the wheel of the package, with nothing but Python: a build backend as PEP 517 describes it.

`pip install ./bindings/python` and `tools/build-wheel` run it. The wheel has the package with its
tests, and inside it the proved library, which tools/build-library makes, the file VERSION and the
examples that the tests read.
"""
from __future__ import annotations

import base64
import hashlib
import os
import sys
import sysconfig
import zipfile
from pathlib import Path
from typing import Dict, List, NoReturn, Optional

HERE = Path(__file__).resolve().parent.parent
ROOT = HERE.parent.parent
LIBRARY = ROOT / "target" / "sharedlib" / "libvihrolom.so"
# the time of every file in the wheel, so that equal files make equal wheels
TIME = (1980, 1, 1, 0, 0, 0)

METADATA = """\
Metadata-Version: 2.1
Name: vihrolom
Version: {version}
Summary: Routes whose worst disappointment is smallest, over a proved library
Requires-Python: >=3.9
Description-Content-Type: text/markdown

{description}"""

WHEEL = """\
Wheel-Version: 1.0
Generator: vihrolom
Root-Is-Purelib: false
Tag: {tag}
"""


def get_requires_for_build_wheel(config_settings: Optional[dict] = None) -> List[str]:
    """Nothing is needed to make the wheel."""
    return []


def build_wheel(
    wheel_directory: str,
    config_settings: Optional[dict] = None,
    metadata_directory: Optional[str] = None,
) -> str:
    """Writes the wheel into a folder, and returns the name of its file."""
    version = (ROOT / "VERSION").read_text(encoding="ascii").strip()
    tag = "py3-none-" + sysconfig.get_platform().replace("-", "_").replace(".", "_")
    files = package_files()
    info = f"vihrolom-{version}.dist-info"
    description = (HERE / "README.md").read_text(encoding="utf-8")
    files[f"{info}/METADATA"] = METADATA.format(version=version, description=description).encode()
    files[f"{info}/WHEEL"] = WHEEL.format(tag=tag).encode()
    files[f"{info}/RECORD"] = record(files, f"{info}/RECORD")
    name = f"vihrolom-{version}-{tag}.whl"
    write_wheel(Path(wheel_directory) / name, files)
    return name


def build_sdist(sdist_directory: str, config_settings: Optional[dict] = None) -> NoReturn:
    """There is none: the proved library is made in the repository, by its own toolchain."""
    raise SystemExit("there is no source distribution of vihrolom: tools/build-wheel makes a wheel")


def package_files() -> Dict[str, bytes]:
    """The files of the package, by their names in the wheel."""
    if not LIBRARY.exists():
        raise SystemExit(f"run tools/build-library first: there is no {LIBRARY}")
    files = {path.relative_to(HERE).as_posix(): path for path in (HERE / "vihrolom").rglob("*.py")}
    for path in (ROOT / "examples").iterdir():
        if path.suffix != ".py":
            files[f"vihrolom/examples/{path.name}"] = path
    files["vihrolom/VERSION"] = ROOT / "VERSION"
    files["vihrolom/libvihrolom.so"] = LIBRARY
    return {name: files[name].read_bytes() for name in sorted(files)}


def record(files: Dict[str, bytes], own_name: str) -> bytes:
    """The list of the files with their digests, itself without one."""
    lines = []
    for name, content in files.items():
        digest = base64.urlsafe_b64encode(hashlib.sha256(content).digest()).rstrip(b"=").decode()
        lines.append(f"{name},sha256={digest},{len(content)}\n")
    return "".join([*lines, f"{own_name},,\n"]).encode()


def write_wheel(path: Path, files: Dict[str, bytes]) -> None:
    """Writes the files as one wheel, which stands there whole or not at all."""
    unfinished = path.with_suffix(".part")
    with zipfile.ZipFile(unfinished, "w", zipfile.ZIP_DEFLATED) as wheel:
        for name, content in files.items():
            entry = zipfile.ZipInfo(name, TIME)
            entry.compress_type = zipfile.ZIP_DEFLATED
            entry.external_attr = (0o755 if name.endswith(".so") else 0o644) << 16
            wheel.writestr(entry, content)
    os.replace(unfinished, path)


if __name__ == "__main__":
    folder = Path(sys.argv[1])
    folder.mkdir(parents=True, exist_ok=True)
    print(folder / build_wheel(str(folder)))
