"""Go and its module golang.org/x/mod, as Debian has them."""

import shutil
from pathlib import Path

ENVIRONMENT = {"GO111MODULE": "off", "GOPATH": "/usr/share/gocode"}
SUMDB = Path(ENVIRONMENT["GOPATH"], "src/golang.org/x/mod/sumdb/tlog")


def skipped():
    """Why nothing of Go can be run, or nothing."""
    packages = {"golang-go": shutil.which("go"), "golang-golang-x-mod-dev": SUMDB.exists()}
    missing = " and ".join(name for name, there in packages.items() if not there)
    return missing and f"skipped, it needs Debian's {missing}"
