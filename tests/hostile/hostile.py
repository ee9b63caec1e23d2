"""usage: hostile.py PROGRAM
Gives the program 10 MB of hostile lines, the same input divided in several ways, a line at a time, and an output that cannot be written.
The answers expected are worked out here, on a sheet of at most one entry, for which no coin is needed."""
import os
import random
import re
import resource
import select
import subprocess
import sys
import time

PROGRAM = os.path.abspath(sys.argv[1])
MEMORY = 16 << 20  # bytes of address space that the program may use
SECONDS = 60
FRAME = re.compile(rb"(01[0-9A-F]{20}|02[0-9A-F]{4}|03[0-9A-F]{8}|04([0-9A-F]{8}){1,16}|05|06|07[0-9A-F]{4})")


class Sheet:
    """The answers of a sheet of at most one entry, and of lines that are no frame."""

    def __init__(self):
        self.entry = None
        self.words = 0

    def answer(self, line):
        match = FRAME.fullmatch(line)
        if not match:
            return self.head(0xFF, 8)
        kind = int(line[:2])
        return getattr(self, f"answer_{kind}")(line)

    def head(self, kind, cause):
        return b"%02X%02X%04X\n" % (kind, cause, self.entry is not None)

    def answer_1(self, line):
        rank, entry = int(line[2:6], 16), line[6:]
        if int(entry, 16) == 0:
            return self.head(0x81, 3)
        if rank > (self.entry is not None):
            return self.head(0x81, 4)
        assert self.entry is None, "a second entry needs a coin"
        self.entry = entry
        return self.head(0x81, 0)

    def answer_2(self, line):
        if int(line[2:6], 16) >= (self.entry is not None):
            return self.head(0x82, 4)
        self.entry = None
        return self.head(0x82, 0)

    def answer_3(self, line):
        first, last = int(line[2:6], 16), int(line[6:], 16)
        if last >= (self.entry is not None) or first > last:
            return self.head(0x83, 4)
        return self.head(0x83, 0)[:-1] + self.entry + b"\n"

    def answer_4(self, line):
        words = (len(line) - 2) // 8
        if self.words + words > 1024:
            return self.head(0x84, 9)
        self.words += words
        return self.head(0x84, 0)

    def answer_5(self, _):
        if self.entry is None:
            return self.head(0x85, 0) + b"9000000000\n"
        return self.head(0x85, 0) + b"9000010001\n9100000001" + self.entry + b"\n"

    def answer_6(self, _):
        self.entry = None
        return self.head(0x86, 0)

    def answer_7(self, line):
        if int(line[2:], 16) >= (self.entry is not None):
            return self.head(0x87, 4)
        retired = int(self.entry, 16) >> 62 & 1
        return self.head(0x87, 0)[:-1] + (b"0000000000000001\n" if retired else b"0001000000010001\n")


def expected(data):
    lines = data.split(b"\n")
    if not lines[-1]:
        lines.pop()
    sheet = Sheet()
    return b"".join(map(sheet.answer, lines))


def limited():
    resource.setrlimit(resource.RLIMIT_AS, (MEMORY, MEMORY))


def answers(data):
    """What the program writes, reading `data` from a pipe."""
    done = subprocess.run([PROGRAM], input=data, stdout=subprocess.PIPE, timeout=SECONDS, preexec_fn=limited)
    assert done.returncode == 0, f"status {done.returncode}"
    return done.stdout


def right(data):
    found, wanted = answers(data), expected(data)
    if found != wanted:
        at = next((i for i, (a, b) in enumerate(zip(found, wanted)) if a != b), min(len(found), len(wanted)))
        raise AssertionError(f"{len(found)} bytes, {len(wanted)} expected; they differ at byte {at}: {found[at:at + 40]} for {wanted[at:at + 40]}")


rng = random.Random(20)
# frames that need no coin, and lines close to frames
VALID = [b"010000000000000000000A", b"020000", b"0300000000", b"04" + b"0123ABCD" * 16, b"05", b"06", b"070000", b"010000FFFFFFFFFFFFFFFF",
         b"0100004000000000000000"]
CLOSE = [b"", b"0", b"00", b"08", b"04", b"05 ", b" 05", b"05\r", b"0a", b"010000000000000000000a", b"02000", b"0200000", b"04" + b"0" * 136,
         b"04" + b"0" * 128, b"03000000000", b"5", b"\0" * 10, b"\xff" * 130, b"0" * 255, b"0" * 256, b"0" * 257, b"05" + b"0" * 254, b"05\0"]


def mixed(size):
    """Valid frames, lines close to frames, and random bytes: no insert where there is an entry, since that one draws."""
    sheet, lines, total = Sheet(), [], 0
    while total < size:
        pick = rng.randrange(8)
        if pick < 3:
            line = rng.choice(VALID)
        elif pick < 6:
            line = rng.choice(CLOSE)
        else:
            line = rng.randbytes(rng.randrange(400)).replace(b"\n", b"")
        if line.startswith(b"01") and sheet.entry is not None:
            continue
        sheet.answer(line)
        lines.append(line)
        total += len(line) + 1
    return b"\n".join(lines) + b"\n"


def empty_lines():
    right(b"\n" * 1_000_000)


def random_bytes():
    right(rng.randbytes(4_000_000))


def long_lines():
    million = b"0" * 1_000_000
    right(b"\n".join([million, b"05" * 500_000, b"05", rng.randbytes(1_000_000).replace(b"\n", b""), b"", b"\xff" * 999_999 + b"\n05"]) + b"\n")


def mixed_lines():
    right(mixed(1_000_000))


def last_line():
    for data in [b"", b"\n", b"05", b"05\n", b"05\n\n", b"\0", b"\r", b"0" * 70_000, b"05\n05", b"\n\n05"]:
        right(data)


def divided():
    """The same input written in pieces of one byte, and of sizes about that of a buffer, gives the same answers."""
    data = mixed(200_000)
    wanted = expected(data)
    for size in [1, 7, 255, 256, 257, 4096, 65_535, 65_536, 65_537]:
        part = data[: 3_000 if size == 1 else len(data)]
        program = subprocess.Popen([PROGRAM], stdin=subprocess.PIPE, stdout=subprocess.PIPE, preexec_fn=limited)
        reader = subprocess.Popen(["cat"], stdin=program.stdout, stdout=subprocess.PIPE)
        program.stdout.close()
        if os.fork() == 0:
            reader.stdout.close()
            for i in range(0, len(part), size):
                os.write(program.stdin.fileno(), part[i:i + size])
            os._exit(0)
        program.stdin.close()
        found = reader.stdout.read()
        os.wait()
        status = program.wait()
        reader.wait()
        assert status == 0, f"status {status}"
        assert found == (expected(part) if size == 1 else wanted), f"pieces of {size} bytes"


def line_by_line():
    """Each answer is there before the next line is written."""
    program = subprocess.Popen([PROGRAM], stdin=subprocess.PIPE, stdout=subprocess.PIPE, bufsize=0)
    sheet = Sheet()
    for line in [b"05", b"010000000000000000000A", b"", b"0300000000", b"no frame", b"05"] * 3:
        if line.startswith(b"01") and sheet.entry is not None:
            line = b"06"
        wanted, found = sheet.answer(line), b""
        program.stdin.write(line + b"\n")
        while len(found) < len(wanted):
            assert select.select([program.stdout], [], [], 5)[0], f"no answer to {line}"
            found += os.read(program.stdout.fileno(), 65_536)
        assert found == wanted, f"{found} for {line}"
    program.stdin.close()
    assert program.wait(5) == 0


def failed_write():
    """An output that takes nothing ends the program, though the input goes on."""
    with open("/dev/full", "wb") as full:
        program = subprocess.Popen([PROGRAM], stdin=subprocess.PIPE, stdout=full)
        try:
            for _ in range(1_000):
                program.stdin.write(b"05\n" * 1_000)
            program.stdin.flush()
        except BrokenPipeError:
            pass
        else:
            raise AssertionError("the program goes on")
        finally:
            try:
                program.stdin.close()
            except BrokenPipeError:
                pass
        assert program.wait(5) == 0


passed = failed = 0
for test in [empty_lines, random_bytes, long_lines, mixed_lines, last_line, divided, line_by_line, failed_write]:
    start = time.monotonic()
    try:
        test()
        passed += 1
    except Exception as error:
        failed += 1
        print(f"hostile: failed: {test.__name__}: {error}")
    if os.environ.get("TIMES"):
        print(f"{test.__name__}: {time.monotonic() - start:.2f} s")
print(f"{passed} passed, {failed} failed")
sys.exit(failed != 0)
