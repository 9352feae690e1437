"""Builds the wheel of lnbd.py with Python alone, so that `pip install .` needs no network (PEP 517)."""

import base64
import hashlib
import os
import zipfile

HERE = os.path.dirname(os.path.abspath(__file__))
NAME = "lnbd"


def version() -> str:
    """That of the repository, or of the file beside this one in a package."""
    for file in (f"{HERE}/../VERSION", f"{HERE}/VERSION"):
        if os.path.exists(file):
            with open(file, encoding="utf-8") as text:
                return text.read().strip()
    return "0"


def metadata() -> str:
    return (
        f"Metadata-Version: 2.1\nName: {NAME}\nVersion: {version()}\nSummary: An NBD client over liblnbd, a proved library\n"
        "License: MIT OR Apache-2.0\nRequires-Python: >=3.9\n"
    )


def build_wheel(wheel_directory, config_settings=None, metadata_directory=None):
    with open(f"{HERE}/{NAME}.py", encoding="utf-8") as text:
        code = text.read().replace('__version__ = "0"', f'__version__ = "{version()}"')
    about = f"{NAME}-{version()}.dist-info"
    files = {
        f"{NAME}.py": code,
        f"{about}/METADATA": metadata(),
        f"{about}/WHEEL": "Wheel-Version: 1.0\nGenerator: lnbd\nRoot-Is-Purelib: true\nTag: py3-none-any\n",
    }
    record = ""
    for name, text in files.items():
        data = text.encode()
        digest = base64.urlsafe_b64encode(hashlib.sha256(data).digest()).rstrip(b"=").decode()
        record += f"{name},sha256={digest},{len(data)}\n"
    files[f"{about}/RECORD"] = record + f"{about}/RECORD,,\n"
    wheel = f"{NAME}-{version()}-py3-none-any.whl"
    with zipfile.ZipFile(os.path.join(wheel_directory, wheel), "w", zipfile.ZIP_DEFLATED) as archive:
        for name, text in files.items():
            archive.writestr(zipfile.ZipInfo(name, (1980, 1, 1, 0, 0, 0)), text)
    return wheel


def build_sdist(sdist_directory, config_settings=None):
    raise NotImplementedError("there is no source distribution: build from the repository")
