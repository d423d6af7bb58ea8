"""Makes a wheel of the modules and the shared library: for `pip install ./bindings/python`, which calls `build_wheel`, and for
script/package, as

    python3 riegeli_wheel.py LIBRARY FOLDER VERSION SECONDS

where the time of each file is so many seconds past 1970. The same files give the same bytes. It needs nothing else."""
import base64
import hashlib
import re
import subprocess
import sys
import time
import zipfile
from pathlib import Path

HERE = Path(__file__).resolve().parent
MODULES = ["riegeli.py", "riegeli_dask.py"]
VERSION = re.search(r'(?m)^__version__ = "(.+)"$', (HERE / "riegeli.py").read_text())[1]
FIRST_OF_1980 = 315532800
TAG = "py3-none-manylinux_2_17_x86_64"
METADATA = """\
Metadata-Version: 2.1
Name: riegeli
Version: {version}
Summary: Riegeli/records files, by calls that are proved
Requires-Python: >=3.8
"""
WHEEL = f"""\
Wheel-Version: 1.0
Generator: riegeli_wheel
Root-Is-Purelib: false
Tag: {TAG}
"""


def recorded(name, data):
    digest = base64.urlsafe_b64encode(hashlib.sha256(data).digest()).rstrip(b"=").decode()
    return f"{name},sha256={digest},{len(data)}\n"


def make(library, folder, version=VERSION, seconds=FIRST_OF_1980):
    """Makes the wheel in a folder, and gives its name."""
    about = f"riegeli-{version}.dist-info"
    files = {name: (HERE / name).read_bytes() for name in MODULES}
    files[library.name] = library.read_bytes()
    files[f"{about}/METADATA"] = METADATA.format(version=version).encode()
    files[f"{about}/WHEEL"] = WHEEL.encode()
    lines = [recorded(name, data) for name, data in sorted(files.items())]
    files[f"{about}/RECORD"] = "".join([*lines, f"{about}/RECORD,,\n"]).encode()
    name = f"riegeli-{version}-{TAG}.whl"
    with zipfile.ZipFile(Path(folder) / name, "w", zipfile.ZIP_DEFLATED) as wheel:
        for file, data in sorted(files.items()):
            entry = zipfile.ZipInfo(file, time.gmtime(seconds)[:6])
            entry.compress_type = zipfile.ZIP_DEFLATED
            entry.external_attr = (0o100755 if file == library.name else 0o100644) << 16
            wheel.writestr(entry, data)
    return name


def built():
    """The shared library, which bindings/c/build makes where it isn't there."""
    folder = HERE.parent / "c/out/lib"
    if not any(folder.glob("libriegeli.so.*")):
        if subprocess.run([HERE.parent / "c/build"]).returncode != 0:
            sys.exit("riegeli_wheel: bindings/c/build could not make the library")
    return next(folder.glob("libriegeli.so.*"))


def build_wheel(wheel_directory, config_settings=None, metadata_directory=None):
    return make(built(), wheel_directory)


if __name__ == "__main__":
    print(make(Path(sys.argv[1]), sys.argv[2], sys.argv[3], int(sys.argv[4])))
