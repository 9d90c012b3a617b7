#!/usr/bin/env python3
"""Checks functions of one crate against the sources of the crates below it, without proving those: a first look, in minutes,
where nothing is proved yet. Only `rt check` and the gate decide.

    bench/look.py elvm_cli --only line::tell
"""
import os
import re
import subprocess
import sys

TOP = os.path.dirname(os.path.dirname(os.path.abspath(__file__)))


def kit():
    """The folder of the toolchain, from the page that `rt doc` names."""
    page = subprocess.run(["rt", "doc"], capture_output=True, text=True, check=True).stdout
    return os.path.dirname(re.search(r"/\S+/START-HERE\.md", page).group(0))


def crates():
    """What each crate stands on, by its name."""
    with open(os.path.join(TOP, "crates.txt"), encoding="utf-8") as file:
        return {name: below.split() for name, below in re.findall(r"^(\w+):(.*)$", file.read(), re.M)}


def below(name, all_crates):
    found = []
    for dep in filter(all_crates.__contains__, all_crates[name]):
        found += [crate for crate in [*below(dep, all_crates), dep] if crate not in found]
    return found


def words(name, all_crates, toolchain):
    under = below(name, all_crates)
    rlibs = os.path.join(toolchain, "rlibs")
    libraries = {"core", "std"} | {dep for crate in [*under, name] for dep in all_crates[crate] if dep not in all_crates}
    main = "main" if os.path.exists(os.path.join(TOP, "crates", name, "src/main.rt")) else "lib"
    given = ["--crate-name", name, f"src/{main}.rt", "-L", f"dependency={rlibs}", "--links", f"{name}=", "--jobs", "1"]
    for library in sorted(libraries):
        given += ["--extern", f"{library}={rlibs}/{library}.rlib"]
    for crate in under:
        uses = ",".join(dict.fromkeys(["core", "std", *all_crates[crate]]))
        given += ["--lib", f"{crate}:{uses}={TOP}/crates/{crate}/src/lib.rt"]
    return [*given, "--antt-project", f"{toolchain}/rattle/logic/antt-project.json", "--logic-built", f"{toolchain}/logic_built"]


def main():
    if len(sys.argv) < 2:
        print(__doc__, file=sys.stderr)
        return 2
    toolchain = kit()
    command = [os.path.join(toolchain, "bin/rattle"), "check", *words(sys.argv[1], crates(), toolchain), *sys.argv[2:]]
    return subprocess.run(command, cwd=os.path.join(TOP, "crates", sys.argv[1])).returncode


if __name__ == "__main__":
    sys.exit(main())
