"""What the scripts of this folder share that build and measure programs of this repository."""
import pathlib
import re
import shutil
import subprocess
import sys
import time

sys.dont_write_bytecode = True
TOP = pathlib.Path(__file__).resolve().parent.parent


def copied(scratch):
    """Copies the files of the repository into a repository of its own in the folder `scratch`, and returns its path."""
    top = pathlib.Path(scratch) / "repository"
    for name in subprocess.check_output(["git", "ls-files", "-z"], cwd=TOP, text=True).split("\0"):
        if name:
            (top / name).parent.mkdir(parents=True, exist_ok=True)
            (top / name).unlink(missing_ok=True)
            shutil.copy2(TOP / name, top / name, follow_symlinks=False)
    subprocess.run(["git", "init", "-q", "."], cwd=top, check=True)
    return top


def list_crate(top, line):
    """Adds a crate's line to crates.txt of the copy."""
    with (top / "crates.txt").open("a") as listed:
        listed.write(f"{line}\n")


def add_program(top, name, source, libraries):
    """Adds a program with this text and these libraries to the copy, and returns its crate's folder."""
    crate = top / "crates" / name
    (crate / "src").mkdir(parents=True, exist_ok=True)
    shutil.copy(source, crate / "src/main.rt")
    list_crate(top, f"{name}: {libraries}")
    return crate


def certificates(pem):
    """The certificates of a PEM file in base64, each on one line."""
    blocks = pathlib.Path(pem).read_text().split("-----BEGIN CERTIFICATE-----")[1:]
    return ["".join(block.split("-----END")[0].split()) for block in blocks]


def taken(words):
    """Runs a command, and returns its wall time in seconds and its most memory in octets. (That of `wait4` is at least what this process had.)"""
    begun, most = time.monotonic(), 0
    child = subprocess.Popen(words, stdout=subprocess.DEVNULL)
    while child.poll() is None:
        found = re.search(r"VmHWM:\s+(\d+) kB", pathlib.Path(f"/proc/{child.pid}/status").read_text())
        most = max(most, int(found[1]) * 1024 if found else 0)
        time.sleep(0.02)
    if child.returncode:
        sys.exit(f"{words[0]} ended with status {child.returncode}")
    return time.monotonic() - begun, most
