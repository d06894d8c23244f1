"""Packs bed.py and libbed.so, which stand beside this file, as a wheel: what `pip install .` calls (pyproject.toml). It needs no
other package, so that it works without a network."""
import base64
import hashlib
import os
import re
import sysconfig
import zipfile

FOLDER = os.path.dirname(os.path.abspath(__file__))
FILES = "bed.py", "libbed.so"


def read(name):
    with open(os.path.join(FOLDER, name), "rb") as file:
        return file.read()


def version():
    return re.search(rb'^VERSION = "(.*)"$', read("bed.py"), re.M)[1].decode()


def tag():
    """the library is of this machine; any Python 3 calls it"""
    return "py3-none-" + re.sub(r"\W", "_", sysconfig.get_platform())


def build_wheel(wheel_directory, config_settings=None, metadata_directory=None):
    if not os.path.exists(os.path.join(FOLDER, "libbed.so")):
        raise SystemExit(f"libbed.so is not in {FOLDER}: `scripts/shared-library {FOLDER}/libbed.so` writes it there")
    number = version()
    about = f"bed-{number}.dist-info"
    content = {name: read(name) for name in FILES}
    content[f"{about}/METADATA"] = f"Metadata-Version: 2.1\nName: bed\nVersion: {number}\nRequires-Python: >=3.8\n".encode()
    content[f"{about}/WHEEL"] = f"Wheel-Version: 1.0\nGenerator: packing\nRoot-Is-Purelib: false\nTag: {tag()}\n".encode()
    lines = []
    for name, data in content.items():
        digest = base64.urlsafe_b64encode(hashlib.sha256(data).digest()).rstrip(b"=").decode()
        lines.append(f"{name},sha256={digest},{len(data)}\n")
    content[f"{about}/RECORD"] = ("".join(lines) + f"{about}/RECORD,,\n").encode()
    wheel = f"bed-{number}-{tag()}.whl"
    with zipfile.ZipFile(os.path.join(wheel_directory, wheel), "w", zipfile.ZIP_DEFLATED) as file:
        for name, data in content.items():
            file.writestr(name, data)
    return wheel


def build_sdist(sdist_directory, config_settings=None):
    raise SystemExit("the sources are the repository's; a wheel is all that is packed here")
