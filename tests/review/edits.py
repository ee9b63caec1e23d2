"""Reads the rows of a review table whose command tries must-fail edits. Each name in the cell before it, `of_this_form`, must be a crate or an
edit of a crate that the command names, and each crate that it names must have an edit there."""
import os
import re
import sys


def edits_of(crate):
    folder = f"crates/{crate}/must-fail"
    return {name[: -len(".edit")] for name in os.listdir(folder)} if os.path.isdir(folder) else set()


def main(path):
    passed, failed = 0, 0
    everything = sorted(os.listdir("crates"))
    for number, line in enumerate(open(path, encoding="utf-8"), 1):
        tried = re.search(r"`rt must-fail([a-z0-9_ ]*)`\s*\|\s*$", line)
        if not tried:
            continue
        crates = tried.group(1).split()
        edits = {crate: edits_of(crate) for crate in crates or everything}
        cited = set(re.findall(r"\b[a-z0-9]+(?:_[a-z0-9]+)+\b", line.split("|")[2])) - set(everything)
        missing = cited - set().union(*edits.values())
        unnamed = [crate for crate in crates if not cited & edits[crate]]
        for name in sorted(missing):
            print(f"{path}:{number}: no crate of the command has an edit {name}")
        for crate in unnamed:
            print(f"{path}:{number}: no edit of {crate} is named")
        passed += len(cited - missing)
        failed += len(missing) + len(unnamed)
    if passed == 0:
        print(f"{path}: no edit was read")
        failed += 1
    print(f"{passed} passed, {failed} failed")
    return 1 if failed else 0


sys.exit(main(sys.argv[1]))
