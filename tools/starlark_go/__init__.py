"""starlark-go's verdict on scripts, where Go and Debian's golang-starlark-dev are installed."""

import os
import shutil
import subprocess
from pathlib import Path

GOPATH = Path("/usr/share/gocode")
ACCEPTS = Path(__file__).with_name("accepts.go")


def installed():
    return bool(shutil.which("go")) and (GOPATH / "src/go.starlark.net").is_dir()


def built(folder):
    """The program that asks starlark-go, built into a folder."""
    program = Path(folder, "accepts")
    environment = os.environ | {"GO111MODULE": "off", "GOPATH": str(GOPATH), "GOFLAGS": ""}
    subprocess.run(["go", "build", "-o", program, ACCEPTS], env=environment, check=True)
    return program


def verdicts(program, paths):
    """For each path `ok`, or why starlark-go refuses it."""
    asked = "".join(f"{path}\n" for path in paths).encode()
    run = subprocess.run([program], input=asked, stdout=subprocess.PIPE, check=True)
    return run.stdout.decode(errors="replace").splitlines()
