#!/usr/bin/env python3
"""Makes the static library of `capi` of the libraries that a run of `rt ci` proved and left in crates/*/out.

usage: tools/archive.py FILE.a SECONDS       right after `rt ci`, which began at that time (date +%s)

`rt lib` in crates/capi makes the same archive, but proves every crate below anew where no check of this checkout's own did. Here capi alone
is proved, over the libraries as the run left them. Where the checkout had libraries of its own, `rt ci` puts those back: they aren't of
the run, and `rt lib` decides which of them still hold.
"""

import os
import shutil
import subprocess
import sys

TOP = os.path.dirname(os.path.dirname(os.path.realpath(__file__)))


def rlib(name):
    return f"{TOP}/crates/{name}/out/rlib/{name}.rlib"


def is_of_run(name, since):
    """Whether the run made the library or took it from what was kept: both give its files a new change time."""
    try:
        return os.stat(f"{rlib(name)}/format").st_ctime >= since
    except OSError:
        return False


def below(name, uses, found):
    """The repository's libraries below a crate, each after those that it uses."""
    for it in uses[name]:
        if it in uses and it not in found:
            below(it, uses, found)
            found.append(it)
    return found


def over_run(uses, archive):
    """Proves capi over the run's libraries and makes its archive."""
    page = subprocess.run(["rt", "doc"], check=True, capture_output=True, text=True).stdout.split()[0]
    kit = os.path.dirname(page)
    words = [f"{kit}/bin/rattle", "build", "--crate-name", "capi", "src/lib.rt", "--crate-type", "staticlib"]
    words += ["--extern", f"std={kit}/rlibs/std.rlib", "-L", f"dependency={kit}/rlibs"]
    for it in uses["capi"]:
        words += ["--extern", f"{it}={rlib(it)}"]
    for it in below("capi", uses, []):
        words += ["-L", f"dependency={os.path.dirname(rlib(it))}"]
    words += ["--antt-project", f"{kit}/rattle/logic/antt-project.json", "--logic-built", f"{kit}/logic_built"]
    words += ["--toolchain", f"{kit}/toolchain", "--backend", "llvm", "--jobs", "2", "-o", archive]
    subprocess.run(words, cwd=f"{TOP}/crates/capi", check=True)


def by_rt(archive):
    subprocess.run(["rt", "lib"], cwd=f"{TOP}/crates/capi", check=True)
    shutil.copyfile(f"{TOP}/crates/capi/out/libcapi.a", archive)


def main():
    if len(sys.argv) != 3:
        sys.exit(__doc__)
    archive, since = os.path.abspath(sys.argv[1]), int(sys.argv[2])
    uses = {}
    with open(f"{TOP}/crates.txt", encoding="utf-8") as lines:
        for line in lines:
            name, colon, libraries = line.split("#")[0].partition(":")
            if colon:
                uses[name.split()[0]] = libraries.split()
    os.makedirs(os.path.dirname(archive), exist_ok=True)
    try:
        if all(is_of_run(it, since) for it in below("capi", uses, [])):
            over_run(uses, archive)
        else:
            by_rt(archive)
    except subprocess.CalledProcessError as error:
        sys.exit(f"archive: {error}")


main()
