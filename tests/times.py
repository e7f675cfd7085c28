#!/usr/bin/env python3
"""times.py CRATE [ROWS]: what a crate's check spends its time on, function by function, for whoever has to make one cheaper.

The checker writes each module that it makes of a function as soon as it has checked it, so the times of these files tell what each took. `Lts` follows the
function's code, and is the expensive part: it grows with the statements times the locals, and with how long the locals' types are when they are spelled out. The
crates below must be built: `rt check` in the crate's folder does that. Seconds are the processor's, shared out by the clock, so leave the machine alone while it
runs.
"""
import collections
import os
import re
import resource
import subprocess
import sys
import tempfile
import time

ROOT = os.path.dirname(os.path.dirname(os.path.abspath(__file__)))
# The modules that the checker makes of a function, beside its own files of proof.
KINDS = {"Key", "Kinds", "Mir", "Code", "Layout", "Symbol", "Statement", "Lts", "Tie", "Reads", "Met", "Proof", "Laws", "Named", "Syntax"}
KINDS |= {"Given", "Goals", "Invariants", "Answers", "Own", "TheLink", "TheLaws"}


def needs():
    """The crates of crates.txt, each with those that it names."""
    rows = (line.split("#")[0].split(":") for line in open(os.path.join(ROOT, "crates.txt"), encoding="utf-8"))
    return {row[0].split()[0]: row[1].split() for row in rows if len(row) == 2}


def below(crate, crates):
    """The crates below it, each after those that it names."""
    found = []
    for name in crates[crate]:
        found += [it for it in [*below(name, crates), name] if name in crates and it not in found]
    return found


def command(crate, folder, jobs=1):
    """The check of the crate as rt runs it in the crate's folder, keeping its modules in the folder."""
    kit = os.path.dirname(subprocess.run(["rt", "doc"], capture_output=True, text=True, check=True).stdout.strip())
    is_program = os.path.exists(os.path.join(ROOT, "crates", crate, "src", "main.rt"))
    words = [os.path.join(kit, "bin", "rattle"), "check", "--crate-name", crate, "src/main.rt" if is_program else "src/lib.rt"]
    crates = needs()
    built = lambda name: os.path.join(ROOT, "crates", name, "out", "rlib") if name in crates else os.path.join(kit, "rlibs")
    for name in ["std"] + crates[crate]:
        words += ["--extern", f"{name}={os.path.join(built(name), name + '.rlib')}"]
    for place in [os.path.join(kit, "rlibs"), *map(built, below(crate, crates))]:
        words += ["-L", f"dependency={place}"]
    words += ["--antt-project", os.path.join(kit, "rattle", "logic", "antt-project.json"), "--logic-built", os.path.join(kit, "logic_built")]
    is_static = re.search(rf"^{crate} +staticlib *:", open(os.path.join(ROOT, "crates.txt"), encoding="utf-8").read(), re.M)
    return words + ["--jobs", str(jobs), "--links", f"{crate}=", *["--crate-type", "staticlib"] * bool(is_static), "--incremental", folder]


def main():
    if len(sys.argv) < 2 or sys.argv[1] not in needs():
        sys.exit("usage: python3 tests/times.py CRATE [ROWS]")
    crate, rows = sys.argv[1], int(sys.argv[2]) if len(sys.argv) > 2 else 20
    with tempfile.TemporaryDirectory() as folder:
        began = time.time()
        ended = subprocess.run(command(crate, folder), capture_output=True, text=True, cwd=os.path.join(ROOT, "crates", crate))
        wall = time.time() - began
        used = resource.getrusage(resource.RUSAGE_CHILDREN)
        files = [os.path.join(where, f) for where, _, names in os.walk(folder) for f in names if f.endswith(".oantt") and not f.endswith(".decls.oantt")]
        written = sorted((os.stat(f).st_mtime, os.path.basename(f)[:-6]) for f in files)
    if ended.returncode != 0:
        sys.exit(ended.stdout + ended.stderr)
    spent = used.ru_utime + used.ru_stime
    by_function, by_kind, before = collections.Counter(), collections.Counter(), began
    for at, module in written:
        parts = module.split(".")
        name = "::".join(p for p in parts[1:] if p not in KINDS) or "(loading)"
        seconds = (at - before) * spent / wall
        by_function[name] += seconds
        by_kind[parts[-1] if parts[-1] in KINDS else "laws and definitions"] += seconds
        before = at
    print(f"{crate}: {spent:.1f} s of the processor, {wall:.1f} s by the clock")
    for counter, most in ((by_function, rows), (by_kind, 5)):
        for name, seconds in counter.most_common(most):
            print(f"  {seconds:6.2f}  {name}")
        print()


if __name__ == "__main__":
    main()
