#!/usr/bin/env python3
"""Has made tags read by a program of others: python3 scripts/read_by_peer.py [--own] [HARNESS]

The harness (harness/target/release/harness, or the one named) draws a fixed list of 300 symbols, made by aztec_encode, or with --own by
the harness's own maker; ZXingReader of zxing-cpp (Debian: zxing-cpp-tools) reads each, and its bytes are held to the message.
Last line: `300 read, N differ`. Known faults of that reader are named below, case by case, each with what it writes instead; they are
printed and counted apart, and a case that differs in any other way is among the N.

A reader corrects what is wrong, so where zint (Debian: zint) is there too, it draws the messages of upper case, one in each shape,
which leave no maker a choice, and every module has to be alike.
"""
import pathlib
import re
import shutil
import subprocess
import sys
import tempfile

from programs import all_there

READER = "ZXingReader"
MAKER = "zint"
HARNESS = pathlib.Path(__file__).parent.parent / "harness/target/release/harness"
# Pixels of a module's side and modules of the border, as the harness draws them.
SCALE, BORDER = 4, 4


def fill_taken_for_bytes(message):
    """B 12: ten or eleven 1s fill the last word. It reads them as B/S and a count of 31, then zeros past the end of the stream."""
    return [message + bytes(31), message + b"\x80" + bytes(30)]


def leading_29_dropped(message):
    """It takes a byte 29 at the start for FNC1 (its identifier is ]z1) and drops it."""
    return [message[1:]] if message[:1] == b"\x1d" else []


KNOWN_FAULTS = {
    "152": fill_taken_for_bytes,
    "154": fill_taken_for_bytes,
    "264": leading_29_dropped,
    "265": leading_29_dropped,
}


def draw(harness, folder, options):
    """Draws the list; answers a line of description for each case."""
    done = subprocess.run([harness, "draw-list", folder, *options], stdout=subprocess.DEVNULL)
    if done.returncode != 0:
        sys.exit(done.returncode)
    lines = (folder / "list.txt").read_text().splitlines()
    return dict(line.split(" ", 1) for line in lines)


def read(image):
    """The bytes that the reader finds; none where it finds no symbol, or more than one.

    They are taken from its listing in hexadecimal, since its option -bytes says the same for no symbol as for no bytes."""
    done = subprocess.run([READER, "-format", "Aztec", "-escape", image], capture_output=True)
    found = [line for line in done.stdout.splitlines() if line.startswith(b"Bytes:")]
    if done.returncode != 0 or len(found) != 1:
        return None
    return bytes.fromhex(found[0].removeprefix(b"Bytes:").decode())


def judge(case, message, found):
    """None where message and bytes agree, or a known fault's reason, or a difference."""
    fault = KNOWN_FAULTS.get(case)
    if found == message:
        return ("note", "read well in spite of a known fault of the reader") if fault else None
    if found is None:
        return "differs", "no symbol was found"
    if fault and found in fault(message):
        return "known", fault.__doc__
    pairs = enumerate(zip(message, found))
    place = next((i for i, (made, got) in pairs if made != got), min(len(message), len(found)))
    made, got = message[place:place + 8], found[place:place + 8]
    return "differs", f"{len(message)} bytes made, {len(found)} read, first unlike at {place}: {made} {got}"


def rows_drawn(image):
    """The modules of an image, a string of 0 and 1 for each row."""
    _, size, _, pixels = image.read_bytes().split(b"\n", 3)
    width = int(size.split()[0])
    places = range(BORDER * SCALE, width - BORDER * SCALE, SCALE)
    return ["".join("01"[pixels[y * width + x] == 0] for x in places) for y in places]


def rows_by_zint(message, shape):
    """The same from zint, whose numbers for the shapes are those of document 01."""
    command = [MAKER, "-b", "92", f"--vers={shape}", "-d", message, "--dump"]
    lines = subprocess.run(command, capture_output=True, text=True).stdout.split("\n")[:-1]
    digits = [line.replace(" ", "") for line in lines]
    return [bin(int("1" + row, 16))[3:][:len(lines)] for row in digits]


def beside_zint(folder, cases):
    """Draws the cases of upper case by zint; answers how many are unlike."""
    if not shutil.which(MAKER):
        print(f"not drawn by {MAKER}, which is missing (Debian: zint)")
        return 0
    upper = {case: int(re.match(r"shape (\d+)", line)[1]) for case, line in cases.items() if line.endswith("upper case")}
    unlike = 0
    for case, shape in upper.items():
        if rows_drawn(folder / f"{case}.pgm") != rows_by_zint((folder / f"{case}.bytes").read_text(), shape):
            print(f"unlike {MAKER}'s: {case}, {cases[case]}")
            unlike += 1
    print(f"{len(upper)} drawn by {MAKER} too, {unlike} unlike")
    return unlike


def compare(harness, folder, options):
    cases = draw(harness, folder, options)
    unlike = beside_zint(folder, cases)
    verdicts, unread = [], 0
    for case, described in cases.items():
        found = read(folder / f"{case}.pgm")
        unread += found is None
        if verdict := judge(case, (folder / f"{case}.bytes").read_bytes(), found):
            verdicts.append(verdict[0])
            print(f"{verdict[0]}: {case}, {described}: {verdict[1]}")
    print(f"{verdicts.count('known')} known faults of the reader")
    print(f"{len(cases) - unread} read, {verdicts.count('differs')} differ")
    return 1 if unlike or "differs" in verdicts or not cases else 0


def main(arguments):
    options = [word for word in arguments if word == "--own"]
    harness, *more = [word for word in arguments if word != "--own"] or [HARNESS]
    if more or str(harness).startswith("-"):
        sys.exit(__doc__)
    if not all_there((READER, "Debian: zxing-cpp-tools"), (harness, "cargo build --release --offline in harness/")):
        return 2
    with tempfile.TemporaryDirectory() as folder:
        return compare(harness, pathlib.Path(folder), options)


sys.exit(main(sys.argv[1:]))
