"""Builds the wheel: the module with the shared object inside. It needs only Python, and no network.

The shared object is that of the folder MOORINGEYE_LIB_DIR, or of this repository, where bin/library builds it first.
Two builds of the same files give the same bytes.
"""
import base64
import hashlib
import os
import subprocess
import tomllib
import zipfile
from pathlib import Path

HERE = Path(__file__).resolve().parent
TAG = "py3-none-manylinux_2_17_x86_64"
TIME = (1980, 1, 1, 0, 0, 0)  # the earliest time that a zip file can have


def library() -> Path:
    """The shared object that goes into the wheel."""
    named = os.environ.get("MOORINGEYE_LIB_DIR")
    if named:
        return Path(named) / "libmooringeye.so"
    build = HERE.parent / "bin/library"
    if not build.exists():
        raise SystemExit("mooringeye: MOORINGEYE_LIB_DIR must name the folder that has libmooringeye.so")
    subprocess.run([build], check=True)
    return HERE.parent / "target/library/libmooringeye.so"


def metadata(project: dict[str, str]) -> dict[str, bytes]:
    """The three files of a wheel about itself, without RECORD."""
    about = "Metadata-Version: 2.1\nName: {name}\nVersion: {version}\nSummary: {description}\n"
    about += "Requires-Python: {requires-python}\n"
    wheel = f"Wheel-Version: 1.0\nGenerator: mooringeye\nRoot-Is-Purelib: false\nTag: {TAG}\n"
    return {"METADATA": about.format(**project).encode(), "WHEEL": wheel.encode()}


def record(files: dict[str, bytes], name: str) -> bytes:
    lines = []
    for path, content in files.items():
        digest = base64.urlsafe_b64encode(hashlib.sha256(content).digest()).rstrip(b"=").decode()
        lines.append(f"{path},sha256={digest},{len(content)}\n")
    return "".join([*lines, f"{name},,\n"]).encode()


def build_wheel(wheel_directory, config_settings=None, metadata_directory=None):
    project = tomllib.loads((HERE / "pyproject.toml").read_text())["project"]
    info = f"mooringeye-{project['version']}.dist-info"
    modules = sorted([*HERE.glob("mooringeye/*.py"), HERE / "mooringeye/py.typed"])
    files = {f"mooringeye/{path.name}": path.read_bytes() for path in modules}
    files["mooringeye/libmooringeye.so"] = library().read_bytes()
    files |= {f"{info}/{name}": content for name, content in metadata(project).items()}
    files[f"{info}/RECORD"] = record(files, f"{info}/RECORD")
    name = f"mooringeye-{project['version']}-{TAG}.whl"
    with zipfile.ZipFile(Path(wheel_directory) / name, "w", zipfile.ZIP_DEFLATED) as wheel:
        for path, content in files.items():
            entry = zipfile.ZipInfo(path, TIME)
            entry.compress_type = zipfile.ZIP_DEFLATED
            entry.external_attr = 0o644 << 16
            wheel.writestr(entry, content)
    return name


def get_requires_for_build_wheel(config_settings=None):
    return []


def build_sdist(sdist_directory, config_settings=None):
    raise SystemExit("mooringeye: there is no source package; the repository is the source")
