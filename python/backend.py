"""Builds the wheel of fohlazu.py by the standard library alone (PEP 517): `pip install ./python` calls it."""

from __future__ import annotations

import base64
import hashlib
import re
import zipfile
from pathlib import Path
from typing import Any

TOP = Path(__file__).resolve().parent
MODULE = (TOP / "fohlazu.py").read_text(encoding="utf-8")
VERSION = re.findall(r'^__version__ = "(.*)"$', MODULE, re.M)[0]
NAME = f"fohlazu-{VERSION}"
METADATA = f"""Metadata-Version: 2.1
Name: fohlazu
Version: {VERSION}
Summary: Verifies proofs of logs by RFC 9162, as the proved program fohlazu does
License: MIT OR Apache-2.0
Requires-Python: >=3.9
"""


def build_wheel(wheel_directory: str, config_settings: Any = None, metadata_directory: Any = None) -> str:
    """Builds the wheel. Tools that install packages, such as pip, call it.

    Args:
        wheel_directory: the folder that the wheel is written to.
        config_settings: settings of the build. There are none, so they are ignored.
        metadata_directory: a folder of metadata that was prepared. This backend prepares none, so it is ignored.

    Returns:
        The name of the wheel's file. The same sources give the same bytes.

    Raises:
        OSError: the wheel can't be written.
    """
    files = {
        "fohlazu.py": MODULE,
        f"{NAME}.dist-info/METADATA": METADATA,
        f"{NAME}.dist-info/WHEEL": "Wheel-Version: 1.0\nGenerator: fohlazu\nRoot-Is-Purelib: true\nTag: py3-none-any\n",
        f"{NAME}.dist-info/entry_points.txt": "[console_scripts]\nfohlazu-verify = fohlazu:main\n",
    }
    rows = ""
    for path, text in files.items():
        digest = base64.urlsafe_b64encode(hashlib.sha256(text.encode()).digest()).decode().rstrip("=")
        rows += f"{path},sha256={digest},{len(text.encode())}\n"
    files[f"{NAME}.dist-info/RECORD"] = f"{rows}{NAME}.dist-info/RECORD,,\n"
    name = f"{NAME}-py3-none-any.whl"
    with zipfile.ZipFile(Path(wheel_directory) / name, "w") as wheel:
        for path, text in files.items():
            wheel.writestr(zipfile.ZipInfo(path), text)
    return name
