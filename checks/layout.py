#!/usr/bin/env python3
"""Sees that each source and each proof is laid out as rt fmt does, which rt ci asks of a crate only when it comes to it: the crates, and the program of rows.

It takes some seconds and needs no library. Uses the standard library, and the kit's own rtlib.py.
"""

import subprocess
import sys

import kit
import rows


def main():
    lib, crates = kit.rtlib(), sorted(it.parent for it in (rows.TOP / "crates").glob("*/src"))
    files = [str(it) for crate in crates for part in lib.PARTS for it in sorted((crate / part).rglob("*")) if it.suffix in (".rt", ".antt")]
    ran = subprocess.run([lib.RATTLE, "fmt", "--check", *files], stdout=subprocess.PIPE, stderr=subprocess.STDOUT, text=True, errors="replace")
    if ran.returncode:
        print(ran.stdout[-3000:])
        print("layout: run rt fmt in these crates' folders")
    is_laid_out = rows.formatted(lib, "--check")
    if not is_laid_out:
        print("layout: run checks/rows.py --format")
    print(f"layout: {len(files)} files of {len(crates)} crates {'are not' if ran.returncode else 'are'} as rt fmt lays them out, and the program of rows {'is' if is_laid_out else 'is not'}")
    return 1 if ran.returncode or not is_laid_out else 0


if __name__ == "__main__":
    sys.exit(main())
