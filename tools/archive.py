#!/usr/bin/env python3
"""Builds the library for other languages from crates/rx_c: tools/archive.py [wasm]

Makes the archive crates/rx_c/out/librx_c.a, which proves rx_c, and beside it module.bc, the code as the toolchain hands it to its compiler. With the word `wasm` it also
makes bindings/js/titaniumbat.wasm from that (bindings/wasm/build). What is there and newer than its sources is left as it is. The libraries below rx_c are taken as they stand
in their folders out/, as `rt ci` leaves them, which proves a static library and does not build it; where one is missing or older than its sources, `rt lib` builds them.
"""
import importlib.util
import os
import shutil
import subprocess
import sys
import tempfile

TOP = os.path.dirname(os.path.dirname(os.path.abspath(__file__)))
CRATE = f"{TOP}/crates/rx_c"
ARCHIVE, CODE = f"{CRATE}/out/librx_c.a", f"{CRATE}/out/module.bc"
WASM, MODULE = f"{TOP}/bindings/wasm", f"{TOP}/bindings/js/titaniumbat.wasm"
PARTS = ("src", "specs", "proofs")

# The compiler of a toolchain that is like the kit's, but keeps what it is given.
KEEPING = """#!/bin/sh
for word in "$@"; do
    case $word in module.bc | */module.bc) cp "$word" '{module}' ;; esac
done
exec '{clang}' "$@"
"""


def kit():
    """The folder of the toolchain's kit."""
    page = subprocess.run(["rt", "doc"], check=True, stdout=subprocess.PIPE, text=True).stdout.split()[-1]
    return os.path.dirname(page)


def kit_crates(folder):
    """The kit's own way to tell a crate's libraries and the words of its build."""
    spec = importlib.util.spec_from_file_location("rtlib", f"{folder}/bin/rtlib.py")
    made = importlib.util.module_from_spec(spec)
    sys.modules["rtlib"] = made
    spec.loader.exec_module(made)
    return made


def newest(folder, parts):
    """When the newest file of some parts of a folder was written."""
    files = [f"{at}/{name}" for part in parts for at, _, names in os.walk(f"{folder}/{part}") for name in names]
    return max(os.stat(file).st_mtime for file in [*files, f"{TOP}/crates.txt"])


def is_newer(path, since):
    return os.path.exists(path) and os.stat(path).st_mtime > since


def is_fresh(library):
    """Whether a built library stands in its folder, and was put there after its sources were written. Its files may be links to older ones, its folder is not."""
    return os.path.isdir(library.rlib) and os.stat(library.rlib).st_ctime > newest(library.folder, PARTS)


def keeping_toolchain(folder, room):
    """A folder like the kit's toolchain, whose compiler keeps the module."""
    made = f"{room}/toolchain"
    os.makedirs(f"{made}/bin")
    for part in os.listdir(f"{folder}/toolchain"):
        if part != "bin":
            os.symlink(f"{folder}/toolchain/{part}", f"{made}/{part}")
    for tool in os.listdir(f"{folder}/toolchain/bin"):
        if tool != "clang":
            os.symlink(f"{folder}/toolchain/bin/{tool}", f"{made}/bin/{tool}")
    with open(f"{made}/bin/clang", "w", encoding="utf-8") as script:
        script.write(KEEPING.format(module=f"{room}/module.bc", clang=f"{folder}/toolchain/bin/clang"))
    os.chmod(f"{made}/bin/clang", 0o755)
    return made


def build(rtlib, crate, folder):
    """Proves the crate, and builds it over the libraries that stand in out/."""
    os.makedirs(f"{CRATE}/out", exist_ok=True)
    with tempfile.TemporaryDirectory() as room:
        words = crate.words(["--jobs", str(min(2, len(os.sched_getaffinity(0))))])
        words += ["--toolchain", keeping_toolchain(folder, room), "--backend", "llvm", *rtlib.KEPT, "-o", f"{room}/librx_c.a"]
        done = subprocess.run([rtlib.RATTLE, "build", *words], cwd=CRATE, stdout=subprocess.PIPE, stderr=subprocess.STDOUT, text=True, errors="replace", check=False)
        if done.returncode:
            sys.exit(f"{done.stdout}archive: crates/rx_c was not built (status {done.returncode})")
        for made, path in ((f"{room}/module.bc", CODE), (f"{room}/librx_c.a", ARCHIVE)):
            shutil.copyfile(made, f"{path}.new")
            os.replace(f"{path}.new", path)


def made():
    """The path of the archive, which is built where it is missing or older than what it is made from."""
    folder = kit()
    rtlib = kit_crates(folder)
    crate = rtlib.Crate(CRATE, TOP, {})
    if not all(is_fresh(library) for library in crate.below()):
        subprocess.run(["rt", "lib"], cwd=CRATE, check=True)
    since = max([newest(CRATE, PARTS), *(os.stat(library.rlib).st_ctime for library in crate.below())])
    if not all(is_newer(path, since) for path in (ARCHIVE, CODE)):
        build(rtlib, crate, folder)
    return ARCHIVE


def module():
    """The path of the module for WebAssembly, likewise."""
    made()
    if not is_newer(MODULE, max(os.stat(CODE).st_mtime, newest(WASM, [""]))):
        subprocess.run([f"{WASM}/build", CODE, MODULE], check=True)
    return MODULE


def main():
    if sys.argv[1:] not in ([], ["wasm"]):
        sys.exit(__doc__)
    print(os.path.relpath(made()))
    if sys.argv[1:]:
        print(os.path.relpath(module()))


if __name__ == "__main__":
    main()
