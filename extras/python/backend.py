"""Makes the wheel of this folder, as `pip install` asks for it (PEP 517), with the standard library alone: a bench may have no network."""

import base64
import hashlib
import re
import zipfile
from pathlib import Path

HERE = Path(__file__).resolve().parent
# The lines `key = "text"` of the project.
PROJECT = dict(re.findall(r'^([a-z-]+) = "(.*)"$', (HERE / "pyproject.toml").read_text(encoding="utf-8"), re.MULTILINE))


def _metadata() -> str:
    known = (("Name", "name"), ("Version", "version"), ("Summary", "description"), ("Requires-Python", "requires-python"))
    lines = "".join(f"{field}: {PROJECT[key]}\n" for field, key in known)
    return f"Metadata-Version: 2.1\n{lines}Description-Content-Type: text/markdown\n\n{(HERE / 'README.md').read_text(encoding='utf-8')}"


def _line(name: str, content: bytes) -> str:
    """The line of a wheel's record for a file."""
    sum_of = base64.urlsafe_b64encode(hashlib.sha256(content).digest()).rstrip(b"=").decode()
    return f"{name},sha256={sum_of},{len(content)}\n"


def build_wheel(wheel_directory, config_settings=None, metadata_directory=None) -> str:
    """Writes the wheel into a folder. The name of its file."""
    stem = f"{PROJECT['name']}-{PROJECT['version']}"
    files = {f"a429/{it}": (HERE / "a429" / it).read_bytes() for it in ("__init__.py", "_library.py", "py.typed")}
    files[f"{stem}.dist-info/METADATA"] = _metadata().encode()
    files[f"{stem}.dist-info/WHEEL"] = b"Wheel-Version: 1.0\nGenerator: a429\nRoot-Is-Purelib: true\nTag: py3-none-any\n"
    record = f"{stem}.dist-info/RECORD"
    files[record] = ("".join(_line(*it) for it in files.items()) + f"{record},,\n").encode()
    with zipfile.ZipFile(Path(wheel_directory) / f"{stem}-py3-none-any.whl", "w") as wheel:
        for name, content in files.items():
            wheel.writestr(name, content)
    return f"{stem}-py3-none-any.whl"
