"""Builds a wheel with the library inside: the build backend of pyproject.toml, for pip, and what build-wheel calls.

It takes the standard library alone. The library is src/dovelectern/libfluent.so, which build-wheel puts there, or the
file that DOVELECTERN_LIBRARY names.
"""
import base64
import hashlib
import os
import pathlib
import re
import zipfile
from typing import Dict, Optional

HERE = pathlib.Path(__file__).resolve().parent
NAME = "dovelectern"


def _field(name: str) -> str:
    found = re.search(rf'(?m)^{name} = "(.*)"$', (HERE / "pyproject.toml").read_text())
    assert found is not None, name
    return found[1]


def _library() -> bytes:
    path = pathlib.Path(os.environ.get("DOVELECTERN_LIBRARY") or HERE / "src" / NAME / "libfluent.so")
    if not path.is_file():
        raise SystemExit(f"{path} is not there: python/build-wheel builds it")
    return path.read_bytes()


def _platform(library: bytes) -> str:
    """The tag of the machines that load the library: those whose C library has all that it calls."""
    versions = [tuple(map(int, it.split(b"."))) for it in re.findall(rb"GLIBC_(\d+\.\d+(?:\.\d+)?)\0", library)]
    major, minor = max([(2, 17), *(it[:2] for it in versions)])
    return f"manylinux_{major}_{minor}_x86_64"


def _metadata() -> str:
    return (f"Metadata-Version: 2.4\nName: {NAME}\nVersion: {_field('version')}\nSummary: {_field('description')}\n"
            f"Requires-Python: {_field('requires-python')}\nLicense-Expression: {_field('license')}\n"
            "License-File: LICENSE-APACHE\nLicense-File: LICENSE-MIT\nClassifier: Typing :: Typed\n")


def _files() -> Dict[str, bytes]:
    """The files of the wheel without its RECORD, by their paths."""
    library = _library()
    info = f"{NAME}-{_field('version')}.dist-info"
    files = {f"{NAME}/{it.name}": it.read_bytes() for it in sorted((HERE / "src" / NAME).iterdir())
             if it.suffix == ".py" or it.name == "py.typed"}
    files[f"{NAME}/libfluent.so"] = library
    for it in ("LICENSE-APACHE", "LICENSE-MIT"):
        files[f"{info}/licenses/{it}"] = (HERE.parent / it).read_bytes()
    files[f"{info}/METADATA"] = _metadata().encode()
    files[f"{info}/WHEEL"] = (f"Wheel-Version: 1.0\nGenerator: {NAME}\nRoot-Is-Purelib: false\n"
                              f"Tag: py3-none-{_platform(library)}\n").encode()
    return files


def _record(files: Dict[str, bytes], path: str) -> bytes:
    lines = []
    for name, data in files.items():
        digest = base64.urlsafe_b64encode(hashlib.sha256(data).digest()).rstrip(b"=").decode()
        lines.append(f"{name},sha256={digest},{len(data)}\n")
    return "".join([*lines, f"{path},,\n"]).encode()


def build_wheel(wheel_directory: str, config_settings: Optional[object] = None,
                metadata_directory: Optional[str] = None) -> str:
    """Writes the wheel into the folder, and gives its name."""
    files = _files()
    version = _field("version")
    record = f"{NAME}-{version}.dist-info/RECORD"
    files[record] = _record(files, record)
    name = f"{NAME}-{version}-py3-none-{_platform(files[f'{NAME}/libfluent.so'])}.whl"
    with zipfile.ZipFile(pathlib.Path(wheel_directory) / name, "w", zipfile.ZIP_DEFLATED) as wheel:
        for path, data in files.items():
            # the same files give the same wheel
            entry = zipfile.ZipInfo(path, (1980, 1, 1, 0, 0, 0))
            entry.compress_type = zipfile.ZIP_DEFLATED
            entry.external_attr = (0o755 if path.endswith(".so") else 0o644) << 16
            wheel.writestr(entry, data)
    return name
