"""Makes the wheel: the package, and liboascanon.so in it. What pip and `make wheel` call (PEP 517), with nothing but Python.

The library is ../lib/liboascanon.so, as `make lib` leaves it, or the file that OASCANON_LIBRARY names. A wheel has the same
bytes whenever it is made of the same files; its files bear the time SOURCE_DATE_EPOCH, where it is set.

    python3 backend.py FOLDER    makes the wheel in FOLDER
"""

import base64
import hashlib
import os
import pathlib
import re
import sys
import sysconfig
import time
import zipfile

HERE = pathlib.Path(__file__).resolve().parent
TOP = HERE.parent
LIBRARY = "liboascanon.so"
# The package runs on any Python, and the library on this platform alone.
TAG = "py3-none-" + re.sub(r"[-.]", "_", sysconfig.get_platform())
# The first moment that a zip file can name.
EARLIEST = 315532800


def version():
    """The version of the program, as PEP 440 spells it: 0.3.0-dev is 0.3.0.dev0."""
    text = (TOP / "crates/oas_request/src/usage.rt").read_text(encoding="utf-8")
    return re.search(r'^const VERSION.*"([0-9a-z.-]*) ', text, re.M).group(1).replace("-dev", ".dev0")


def library():
    """The bytes of the library."""
    path = pathlib.Path(os.environ.get("OASCANON_LIBRARY") or TOP / "lib" / LIBRARY)
    if not path.is_file():
        sys.exit(f"{path} isn't there: `make lib` at the top of the repository makes it")
    return path.read_bytes()


def metadata():
    lines = [
        "Metadata-Version: 2.1",
        "Name: oascanon",
        f"Version: {version()}",
        "Summary: Canonical form of OASIS (SEMI P39) mask layouts",
        "Requires-Python: >=3.9",
        "Classifier: Operating System :: POSIX :: Linux",
        "Classifier: Typing :: Typed",
        "Description-Content-Type: text/markdown",
    ]
    return "\n".join([*lines, "", (TOP / "docs/PYTHON.md").read_text(encoding="utf-8")])


def information():
    """The files about the package, by name."""
    return {"METADATA": metadata(), "WHEEL": f"Wheel-Version: 1.0\nGenerator: oascanon\nRoot-Is-Purelib: false\nTag: {TAG}\n"}


def folder_name():
    return f"oascanon-{version()}.dist-info"


def contents():
    """The bytes of each file of the wheel, by its path in there."""
    package = sorted(path for path in (HERE / "oascanon").iterdir() if path.suffix in (".py", ".typed"))
    files = {f"oascanon/{path.name}": path.read_bytes() for path in package}
    files[f"oascanon/{LIBRARY}"] = library()
    files.update((f"{folder_name()}/{name}", text.encode()) for name, text in information().items())
    record = f"{folder_name()}/RECORD"
    lines = [f"{path},sha256={digest(data)},{len(data)}\n" for path, data in files.items()]
    return {**files, record: "".join([*lines, f"{record},,\n"]).encode()}


def digest(data):
    return base64.urlsafe_b64encode(hashlib.sha256(data).digest()).rstrip(b"=").decode()


def entry(path):
    """A file of the zip file: plain, readable by all, and with a fixed time."""
    seconds = max(int(os.environ.get("SOURCE_DATE_EPOCH", EARLIEST)), EARLIEST)
    made = zipfile.ZipInfo(path, time.gmtime(seconds)[:6])
    made.compress_type, made.create_system, made.external_attr = zipfile.ZIP_DEFLATED, 3, 0o100644 << 16
    return made


def build_wheel(wheel_directory, config_settings=None, metadata_directory=None):
    """Makes the wheel in this folder. Returns the name of its file."""
    name, files = f"oascanon-{version()}-{TAG}.whl", contents()
    with zipfile.ZipFile(pathlib.Path(wheel_directory) / name, "w") as wheel:
        for path, data in files.items():
            wheel.writestr(entry(path), data)
    return name


def prepare_metadata_for_build_wheel(metadata_directory, config_settings=None):
    """Writes the files about the package into a folder of this one. Returns its name."""
    folder = pathlib.Path(metadata_directory) / folder_name()
    folder.mkdir()
    for name, text in information().items():
        (folder / name).write_text(text, encoding="utf-8")
    return folder.name


def build_sdist(sdist_directory, config_settings=None):
    """There are no sources to hand on without the rest of the repository, which proves the library."""
    sys.exit("oascanon has no source distribution: build its wheel in the repository")


if __name__ == "__main__":
    target = pathlib.Path(sys.argv[1])
    target.mkdir(parents=True, exist_ok=True)
    print(target / build_wheel(target))
