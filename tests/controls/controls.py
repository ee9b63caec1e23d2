"""Applies each edit to a copy of the rules' definitions and of the laws above them, and has that copy checked.

The copy holds the crates up to `tree_canonical`; of the crate `tree_rules` it has the definitions, the laws and the enums, but no function, so that
nothing but a law can refuse an edit. An edit is one of must-fail's form with a line more: `refused:` names the file, and the law in it, that
refuses the edit first. Face 1 for face 0 where the new size is drawn is no such edit: among N + 1 both have the same share."""
import pathlib
import re
import shutil
import subprocess
import sys
import tempfile

CRATES = ["base", "draw", "draw_shares", "tree_sizes", "tree_rules", "tree_canonical"]


def enums(source):
    """The head of a source file, to its first empty line, and its enums, each with the comment and the attributes above it."""
    return source.split("\n\n", 1)[0] + "\n\n" + "\n".join(re.findall(r"(?ms)^(?:// [^\n]*\n)+(?:#\[[^\n]*\n)*pub enum .*?^}\n", source))


def copy(place):
    lines = pathlib.Path("crates.txt").read_text(encoding="utf-8").splitlines()
    kept = [line for line in lines if line.split(":")[0] in CRATES]
    (place / "crates.txt").write_text("\n".join(kept) + "\n", encoding="utf-8")
    for name in CRATES:
        for part in ["src", "specs", "proofs"]:
            source = pathlib.Path("crates") / name / part
            # of the proofs of tree_rules the laws alone, which stand right in the folder
            laws = (lambda folder, names: [n for n in names if not n.endswith(".antt")]) if (name, part) == ("tree_rules", "proofs") else None
            if source.is_dir():
                shutil.copytree(source, place / "crates" / name / part, ignore=laws)
    code = place / "crates/tree_rules/src/lib.rt"
    code.write_text(enums(code.read_text(encoding="utf-8")), encoding="utf-8")


def check(place):
    """Whether the copy is proved, and the first place at which it is not, by the crate, the file in it and the name."""
    run = subprocess.run(["rt", "check", "--jobs", "1"], cwd=place / "crates" / CRATES[-1], capture_output=True, text=True)
    said = run.stdout + run.stderr
    library = re.search(r"(?m)^rt: the library (\w+) did not build", said)
    first = re.search(r"(?m)^\./(\S+\.antt):\d+:\d+: error: `([^`]+)`", said)
    crate = library.group(1) if library else CRATES[-1]
    return run.returncode == 0, (f"{crate}/{first.group(1)}", first.group(2)) if first else None, said


def edited(place, edit):
    """Applies the edit; what it was before, and the place of its refusal."""
    before, file, old, refused = {}, None, None, None
    for line in edit.read_text(encoding="utf-8").splitlines():
        key, _, text = line.partition(": ")
        if key == "file":
            file = place / "crates" / text
            before.setdefault(file, file.read_text(encoding="utf-8"))
        elif key == "refused":
            refused = tuple(text.split())
        elif key == "old":
            old = text
        elif key == "new":
            now = file.read_text(encoding="utf-8")
            if now.count(old) != 1:
                raise SystemExit(f"{edit}: its old text stands {now.count(old)} times in {file.name}\n0 passed, 1 failed")
            file.write_text(now.replace(old, text), encoding="utf-8")
    return before, refused


def main(edits):
    passed, failed = 0, 0
    with tempfile.TemporaryDirectory() as name:
        place = pathlib.Path(name)
        copy(place)
        proved, first, said = check(place)
        if not proved:
            print(said)
            print("controls: the copy without an edit is not proved")
            print("0 passed, 1 failed")
            return 1
        passed += 1
        for edit in map(pathlib.Path, edits):
            before, refused = edited(place, edit)
            proved, first, said = check(place)
            if not proved and first == refused:
                print(f"{edit.stem}: refused by {first[0]} {first[1]}, as it must be")
                passed += 1
            else:
                print(f"{edit.stem}: {'proved' if proved else f'refused by {first}'}, and not refused by {refused}")
                failed += 1
            for file, text in before.items():
                file.write_text(text, encoding="utf-8")
    print(f"{passed} passed, {failed} failed")
    return 1 if failed else 0


sys.exit(main(sys.argv[1:]))
