"""The crates of the repository, and how the prover is called over the libraries that stand in crates/*/out."""

import os
import re
import shutil
import subprocess

ROOT = os.path.dirname(os.path.dirname(os.path.realpath(__file__)))
KIT = os.path.dirname(os.path.dirname(os.path.realpath(shutil.which("rt"))))


def read(path):
    with open(path, encoding="utf-8", errors="replace") as file:
        return file.read()


def listed():
    """The crates, from the bottom up, each with whether it is a static library, what it uses and all crates below it."""
    found = {}
    for line in read(f"{ROOT}/crates.txt").split("\n"):
        crate = re.match(r"(\w+)( staticlib)?:(.*)", line)
        if crate:
            uses = crate[3].split()
            below = dict.fromkeys(it for use in uses for it in [*found[use][2], use])
            found[crate[1]] = bool(crate[2]), uses, [*below]
    return found


CRATES = listed()


def prover(verb, crate, folder, *more):
    """Calls the prover on a crate whose text stands in this folder; what it says."""
    is_static, uses, below = CRATES[crate]
    rlibs = {it: f"{ROOT}/crates/{it}/out/rlib" for it in below}
    words = ["--crate-name", crate, f"src/{'main' if os.path.exists(f'{folder}/src/main.rt') else 'lib'}.rt"]
    words += ["--extern", f"std={KIT}/rlibs/std.rlib", "-L", f"dependency={KIT}/rlibs"]
    words += [word for it in uses for word in ("--extern", f"{it}={rlibs[it]}/{it}.rlib")]
    words += [word for it in below for word in ("-L", f"dependency={rlibs[it]}")]
    words += ["--antt-project", f"{KIT}/rattle/logic/antt-project.json", "--logic-built", f"{KIT}/logic_built"]
    words += ["--crate-type", "staticlib"] * is_static
    how = {"cwd": folder, "stdin": subprocess.DEVNULL, "stdout": subprocess.PIPE, "stderr": subprocess.STDOUT}
    return subprocess.run([f"{KIT}/bin/rattle", verb, *words, *more], **how, text=True, errors="replace")
