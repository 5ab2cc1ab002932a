"""Compiles the plain program of bench/job, which stands on Debian's crate `csv` (librust-csv-dev), without a network."""
import glob
import os
import shutil
import subprocess

from measure import BENCH

CRATES = "/usr/share/cargo/registry"
SOURCE = ['source.crates-io.replace-with="debian"', f'source.debian.directory="{CRATES}"']


def lacking():
    """What the program can't be compiled without and isn't here; None if all of it is."""
    if shutil.which("cargo") is None:
        return "cargo"
    return None if glob.glob(os.path.join(CRATES, "csv-1.*")) else "Debian's librust-csv-dev"


def cargo(verb, room):
    """Has `cargo` compile a copy of the program in this folder: `build`, or `check`, which makes no program. A warning is a fault."""
    copy, target = os.path.join(room, "job"), os.path.join(room, "target")
    shutil.copytree(os.path.join(BENCH, "job"), copy)
    words = ["cargo", verb, "--release", "--offline", "--quiet", "--target-dir", target]
    words += [word for value in SOURCE for word in ("--config", value)]
    ran = subprocess.run(words, cwd=copy, env=os.environ | {"RUSTFLAGS": "-D warnings"}, stdin=subprocess.DEVNULL, capture_output=True, text=True)
    return ran, os.path.join(target, "release/job")
