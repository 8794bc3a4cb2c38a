#!/usr/bin/env python3
"""costs.py [NAME..]: what crates cost the gate, dearest first: CPU seconds of one check from nothing, must-fail edits, check × (1 + edits).
The last is the most that they cost: an edit is tried over what the crate's own check proved. One crate after another, each over its
libraries as `rt check` builds them; without names, all crates."""
import glob
import importlib.machinery
import importlib.util
import os
import re
import resource
import subprocess
import sys

ROOT = os.path.realpath(os.path.join(os.path.dirname(__file__), ".."))


def of_kit(name):
    """A module of Rattle's kit, which has no command for a check from nothing over libraries that are built."""
    kit = os.path.dirname(subprocess.run(["rt", "doc"], capture_output=True, text=True, check=True).stdout.strip())
    loader = importlib.machinery.SourceFileLoader(name, os.path.join(kit, "bin", name + ".py"))
    module = importlib.util.module_from_spec(importlib.util.spec_from_loader(name, loader))
    loader.exec_module(module)
    return module


def seconds_of(rtlib, name):
    folder = os.path.join(ROOT, "crates", name)
    quiet = {"cwd": folder, "stdout": subprocess.DEVNULL, "stderr": subprocess.DEVNULL}
    if subprocess.run(["rt", "check"], **quiet).returncode:
        raise SystemExit("%s is not proved" % name)
    before = resource.getrusage(resource.RUSAGE_CHILDREN)
    words = rtlib.Crate(folder, ROOT, {}).words(["--jobs", "1"], keeps=False)
    subprocess.run([rtlib.RATTLE, "check"] + words, check=True, **quiet)
    after = resource.getrusage(resource.RUSAGE_CHILDREN)
    return after.ru_utime + after.ru_stime - before.ru_utime - before.ru_stime


def main():
    names = sys.argv[1:]
    if not names:
        with open(os.path.join(ROOT, "crates.txt"), encoding="utf-8") as f:
            names = re.findall(r"(?m)^(\w+)[^#\n]*?:", f.read())
    rtlib = of_kit("rtlib")
    rows = []
    for name in names:
        edits = len(glob.glob(os.path.join(ROOT, "crates", name, "must-fail", "*.edit")))
        cpu = seconds_of(rtlib, name)
        rows.append((name, cpu, edits, cpu * (1 + edits)))
    rows.append(("together", *(sum(row[k] for row in rows) for k in (1, 2, 3))))
    for row in sorted(rows, key=lambda row: -row[3]):
        print("%-22s %6.1f %3d %7.1f" % row)


if __name__ == "__main__":
    main()
