"""Builds the wheel with the standard library and `cc` alone, so that pip installs from this folder without a network.

The static library becomes a shared one inside the package, beside the header, from which the calls and the version are read.
STATICLIB is the folder of a libchart_c.a for this machine; left out, it is target/staticlib of the repository."""
import base64
import hashlib
import os
import re
import shutil
import subprocess
import sys
import sysconfig
import tempfile
import zipfile
from pathlib import Path

HERE = Path(__file__).resolve().parent
ROOT = HERE.parents[1]
HEADER = ROOT / "crates/chart_c/include/mirtalughe.h"
SUMMARY = "Which pieces of a chart meet, and where: the proved calls of libchart_c.a from Python"


def shared(made):
    """Makes the static library a shared one."""
    archive = Path(os.environ.get("STATICLIB") or ROOT / "target/staticlib") / "libchart_c.a"
    if not archive.is_file():
        raise SystemExit(f"{archive} is not there: run `make`, or set STATICLIB to its folder")
    words = [os.environ.get("CC", "cc"), "-shared", "-o", made, "-Wl,--whole-archive", archive, "-Wl,--no-whole-archive"]
    done = subprocess.run(words, capture_output=True, text=True)
    if done.returncode:
        raise SystemExit(f"{words[0]} cannot make {archive} a shared library:\n{done.stderr}")


def version():
    return re.search(r'MIRTALUGHE_VERSION "(.*?)"', HEADER.read_text())[1]


def tag():
    return f"py3-none-{re.sub('[-.]', '_', sysconfig.get_platform())}"


def described():
    """The folder that describes the package, and its two files."""
    head = f"Metadata-Version: 2.1\nName: mirtalughe\nVersion: {version()}\n"
    wheel = f"Wheel-Version: 1.0\nGenerator: mirtalughe\nRoot-Is-Purelib: false\nTag: {tag()}\n"
    files = {"METADATA": f"{head}Summary: {SUMMARY}\nRequires-Python: >=3.10\n", "WHEEL": wheel}
    return f"mirtalughe-{version()}.dist-info", {name: text.encode() for name, text in files.items()}


def prepare_metadata_for_build_wheel(metadata_directory, config_settings=None):
    folder, files = described()
    (Path(metadata_directory) / folder).mkdir()
    for name, data in files.items():
        (Path(metadata_directory) / folder / name).write_bytes(data)
    return folder


def build_wheel(wheel_directory, config_settings=None, metadata_directory=None):
    name, (told, about) = f"mirtalughe-{version()}-{tag()}.whl", described()
    with tempfile.TemporaryDirectory() as folder:
        package = Path(folder) / "mirtalughe"
        shutil.copytree(HERE / "mirtalughe", package, ignore=shutil.ignore_patterns("__pycache__", "*.so", "*.h"))
        shutil.copy(HEADER, package)
        shared(package / "libmirtalughe.so")
        files = {f"mirtalughe/{file.name}": file.read_bytes() for file in sorted(package.iterdir())}
        files |= {f"{told}/{file}": data for file, data in about.items()}
        pack(Path(wheel_directory) / name, files, f"{told}/RECORD")
    return name


def pack(path, files, record):
    """Writes the files and the list of them with their digests."""
    lines = []
    for name, data in files.items():
        digest = base64.urlsafe_b64encode(hashlib.sha256(data).digest()).rstrip(b"=").decode()
        lines.append(f"{name},sha256={digest},{len(data)}\n")
    files = files | {record: "".join([*lines, f"{record},,\n"]).encode()}
    with zipfile.ZipFile(path, "w", zipfile.ZIP_DEFLATED) as made:
        for name, data in files.items():
            made.writestr(name, data)


def build_sdist(sdist_directory, config_settings=None):
    raise SystemExit("the package is built inside its repository: there is no source archive of it")


if __name__ == "__main__":
    # backend.py FILE: the shared library alone.
    shared(Path(sys.argv[1]))
