"""Reads the tables of a claims file. In a row, `path/file` names a file, and each later `name` of the cell must be declared there."""
import re
import sys


def declared(text, name):
    escaped = re.escape(name)
    return re.search(
        rf"(?m)^\s*(?:(?:unfoldable|abbrev|pub)\s+)*(?:(?:data|record|enum|struct)\s+)?{escaped}(?=\s[^=]*[:{{])", text
    ) or re.search(rf"(?m)^\s*(?:pub\s+)?(?:extern \"C\"\s+)?(?:fn|const) {escaped}\b", text)


def main(path):
    passed, failed, files = 0, 0, {}
    for number, line in enumerate(open(path, encoding="utf-8"), 1):
        if not line.startswith("|"):
            continue
        for cell in line.strip().strip("|").split("|"):
            current = None
            for word in re.findall(r"`([^`]+)`", cell):
                if "/" in word and "." in word:
                    current = "crates/" + word
                    if current not in files:
                        try:
                            files[current] = open(current, encoding="utf-8").read()
                        except OSError:
                            print(f"{path}:{number}: no file {current}")
                            failed += 1
                            files[current] = ""
                elif current is not None:
                    if declared(files[current], word):
                        passed += 1
                    else:
                        print(f"{path}:{number}: {current} declares no `{word}`")
                        failed += 1
    if passed == 0:
        print(f"{path}: no claim was read")
        failed += 1
    print(f"{passed} passed, {failed} failed")
    return 1 if failed else 0


sys.exit(main(sys.argv[1]))
