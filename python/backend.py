"""Backend: makes the package's wheel for pip, with Python alone and without a network. The shared library is built first if it is not
there."""

import base64
import hashlib
import subprocess
import sys
import sysconfig
import tomllib
import zipfile
from pathlib import Path

HERE = Path(__file__).resolve().parent
LIBRARY = HERE / "wigandoy" / "libwigandoy.so"


def _metadata(project):
    """The wheel's METADATA."""
    lines = ["Metadata-Version: 2.1", f"Name: {project['name']}", f"Version: {project['version']}", f"Summary: {project['description']}",
             f"Requires-Python: {project['requires-python']}"]
    for extra, wanted in project["optional-dependencies"].items():
        lines += [f"Provides-Extra: {extra}", *(f'Requires-Dist: {name}; extra == "{extra}"' for name in wanted)]
    return "\n".join(lines) + "\n"


def _contents():
    """The package's files, each with its name in the wheel."""
    for path in sorted((HERE / "wigandoy").rglob("*")):
        if path.is_file() and path.suffix in (".py", ".so", ".cows", ".moves"):
            yield path.relative_to(HERE).as_posix(), path.read_bytes()


def _record(name, content):
    """A line of the wheel's RECORD."""
    digest = base64.urlsafe_b64encode(hashlib.sha256(content).digest()).rstrip(b"=").decode()
    return f"{name},sha256={digest},{len(content)}"


def build_wheel(wheel_directory, config_settings=None, metadata_directory=None):
    """What pip calls."""
    if not LIBRARY.exists() and subprocess.run([sys.executable, HERE / "build"]).returncode:
        raise SystemExit("wigandoy: the shared library is not there and could not be built; see above")
    project = tomllib.loads((HERE / "pyproject.toml").read_text())["project"]
    tag = f"py3-none-{sysconfig.get_platform().replace('-', '_').replace('.', '_')}"
    named = f"{project['name']}-{project['version']}"
    about = {"METADATA": _metadata(project), "WHEEL": f"Wheel-Version: 1.0\nGenerator: wigandoy\nRoot-Is-Purelib: false\nTag: {tag}\n"}
    files = [*_contents(), *((f"{named}.dist-info/{name}", text.encode()) for name, text in about.items())]
    record = f"{named}.dist-info/RECORD"
    lines = [*(_record(name, content) for name, content in files), f"{record},,"]
    wheel = f"{named}-{tag}.whl"
    with zipfile.ZipFile(Path(wheel_directory) / wheel, "w", zipfile.ZIP_DEFLATED) as archive:
        for name, content in [*files, (record, "\n".join(lines).encode() + b"\n")]:
            archive.writestr(name, content)
    return wheel
