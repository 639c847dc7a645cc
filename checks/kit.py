"""The kit's own rtlib.py, which knows the words of a check and how a library is built, and the kit's version; build.py, bench/unproved.py and scripts of checks/ use it."""

import contextlib
import importlib.machinery
import importlib.util
import os
import subprocess
import sys
import threading
from pathlib import Path


def home():
    """The kit's folder."""
    page = subprocess.run(["rt", "doc"], stdout=subprocess.PIPE, text=True, check=True).stdout.split()[-1]
    return Path(page).parent


def rtlib():
    """The kit's rtlib.py, as a module."""
    sys.dont_write_bytecode = True
    loader = importlib.machinery.SourceFileLoader("rtlib", str(home() / "bin/rtlib.py"))
    made = importlib.util.module_from_spec(importlib.util.spec_from_loader("rtlib", loader))
    sys.modules["rtlib"] = made
    loader.exec_module(made)
    return made


def called(name):
    """The built program by one of its names, dns-audit or dns-follow: a second name of its file, as `dns` makes it."""
    program = Path(__file__).resolve().parent.parent / "crates" / "dns_program" / "out" / "dns_program"
    named = Path(f"{program}.names", name)
    if program.is_file() and not (named.is_file() and named.samefile(program)):
        named.parent.mkdir(exist_ok=True)
        named.unlink(missing_ok=True)
        with contextlib.suppress(FileExistsError):
            os.link(program, named)
    return named


def version():
    """The line by which the kit names itself."""
    return subprocess.run(["rt", "version"], stdout=subprocess.PIPE, text=True, check=True).stdout.strip()


def sums_once(lib):
    """Has the kit reckon a crate's sum once in a look at it, where each library above asks for it anew: seconds in place of minutes."""
    plain, held = lib.Crate.stamp, threading.local()

    def stamp(crate):
        is_outer = getattr(held, "sums", None) is None
        if is_outer:
            held.sums = {}
        try:
            if crate.name not in held.sums:
                held.sums[crate.name] = plain(crate)
            return held.sums[crate.name]
        finally:
            if is_outer:
                held.sums = None

    lib.Crate.stamp = stamp
