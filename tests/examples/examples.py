"""usage: examples.py PROGRAM
Runs the lines that the documents show, and compares what the program answers with what they say."""
import re
import subprocess
import sys


def session(text):
    """The lines between the marks END, and the next indented block."""
    lines, rest = text.split("<<'END'\n")[1].split("    END\n")
    answers = re.search(r"(?:^    .+\n)+", rest, re.MULTILINE).group()
    return [[line.strip() for line in block.splitlines()] for block in (lines, answers)]


def table(text):
    """The first two columns of the rows under "An example"."""
    rows = [line.split("|")[1:3] for line in text.split("## An example")[1].splitlines() if line.startswith("| `")]
    return [[shown for row in rows for shown in re.findall("`([^`]+)`", row[column])] for column in (0, 1)]


def main(program):
    passed, failed = 0, 0
    for path, read in (("README.md", session), ("docs/FRAMES.md", table)):
        lines, expected = read(open(path, encoding="utf-8").read())
        ran = subprocess.run([program], input="".join(line + "\n" for line in lines), capture_output=True, text=True, timeout=60)
        answers = ran.stdout.splitlines()
        if len(lines) >= 5 and ran.returncode == 0 and answers == expected:
            passed += 1
        else:
            print(f"{path}: the program answers {lines} by {answers}, not by {expected}")
            failed += 1
    print(f"{passed} passed, {failed} failed")
    return 1 if failed else 0


sys.exit(main(sys.argv[1]))
