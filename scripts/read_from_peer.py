#!/usr/bin/env python3
"""Reads tags that a program of others made: python3 scripts/read_from_peer.py [READ_TAG]

zint (Debian: zint) draws a fixed list of 300 messages, eight kinds in each of the 36 shapes and a ninth in every third; each grid, turned
or mirrored into a position of its own, is given to read_tag (crates/read_tag/out/read_tag, by `rt run` in crates/read_tag, or the one
named), and shape, position, counts and message have to be as made. Last line: `300 read, N differ`.
"""
import pathlib
import random
import subprocess
import sys
import tempfile

from programs import all_there

MAKER = "zint"
READ_TAG = pathlib.Path(__file__).parent.parent / "crates/read_tag/out/read_tag"

UPPER = b" ABCDEFGHIJKLMNOPQRSTUVWXYZ"
LOWER = UPPER.lower()
DIGITS = b"0123456789,. "
PUNCT = b"!\"#$%&'()*+-/:;<=>?[]{}"
MIXED = bytes([*range(1, 14), *range(27, 32), *b"@\\^_`|~", 127])
EVERY = bytes(range(256))


def drawn_from(*sets):
    """A kind of message: a run of up to nine bytes of one set, then of the next."""
    def message(chance, length):
        made = b""
        while len(made) < length:
            made += bytes(chance.choices(sets[chance.randrange(len(sets))], k=chance.randint(1, 9)))
        return made[:length]
    return message


def pairs(chance, length):
    """The four pairs that have a code of their own, among words."""
    parts = [b"\r\n", b". ", b", ", b": ", b"POT", b"tray"]
    return b"".join(chance.choices(parts, k=length))[:length]


# Each kind with the bits that a byte of it may take, latches and B/S included.
KINDS = {
    "upper case": (drawn_from(UPPER), 5.5),
    "lower case": (drawn_from(LOWER), 6),
    "digits": (drawn_from(DIGITS), 5),
    "punctuation": (drawn_from(PUNCT), 8),
    "text": (drawn_from(UPPER, LOWER, DIGITS, PUNCT), 11),
    "control characters": (drawn_from(MIXED), 9),
    "any bytes": (drawn_from(EVERY), 14),
    "pairs": (pairs, 9),
    "bytes that no set has": (drawn_from(EVERY[128:]), 10),
}


def shape_name(number):
    return f"C{number}" if number < 5 else f"F{number - 4}"


def room(number):
    """The bits of a shape: "compact (88 + 16L)·L, full (112 + 16L)·L"."""
    layers = number if number < 5 else number - 4
    return ((88 if number < 5 else 112) + 16 * layers) * layers


def rows_by_zint(message, number):
    """The modules, a string of 0 and 1 for each row; None where the message doesn't go in."""
    with tempfile.NamedTemporaryFile() as file:
        file.write(message)
        file.flush()
        command = [MAKER, "-b", "92", "--binary", f"--vers={number}", "-i", file.name, "--dump"]
        done = subprocess.run(command, capture_output=True, text=True)
    if done.returncode != 0:
        return None
    lines = done.stdout.split("\n")[:-1]
    digits = [line.replace(" ", "") for line in lines]
    return [bin(int("1" + row, 16))[3:][:len(lines)] for row in digits]


def placed(rows, position):
    """"clockwise quarter turns, 0 to 3, plus 4 if the made tag was mirrored left to right before them"""
    if position >= 4:
        rows = [row[::-1] for row in rows]
    for _ in range(position % 4):
        rows = ["".join(column) for column in zip(*rows[::-1])]
    return rows


def tags():
    """Shape, kind and position of the 300; a fixed list."""
    turn = 0
    for number in range(1, 37):
        for kind in list(KINDS)[: 9 if number % 3 == 0 else 8]:
            yield number, kind, turn % 8
            turn += 3


def made(number, kind):
    """A message of this kind and zint's symbol of it: some part of what the shape holds, less where zint refuses."""
    message, bits = KINDS[kind]
    chance = random.Random(f"{number} {kind}")
    length = max(1, int(room(number) * chance.uniform(0.1, 0.75) / bits))
    while length > 0:
        text = message(chance, length)
        if rows := rows_by_zint(text, number):
            return text, rows
        length = length * 3 // 4
    sys.exit(f"{MAKER} makes no {shape_name(number)} of {kind}")


def difference(read_tag, number, kind, position):
    """What read_tag says unlike what was made; None where nothing is."""
    message, rows = made(number, kind)
    grid = "\n".join(placed(rows, position)) + "\n"
    done = subprocess.run([read_tag], input=grid.encode(), capture_output=True)
    first = f"{shape_name(number)}, position {position}, unread words 0, wrong words 0, bytes {len(message)}"
    if done.stdout == first.encode() + b"\n" + message + b"\n":
        return None
    said = done.stdout.split(b"\n", 1)[0].decode(errors="replace")
    return f"{shape_name(number)}, {kind}, position {position}, {len(message)} bytes: {said or done.stderr.decode().strip()}"


def main(arguments):
    read_tag, *more = arguments or [READ_TAG]
    if more or str(read_tag).startswith("-"):
        sys.exit(__doc__)
    if not all_there((MAKER, "Debian: zint"), (read_tag, "rt run in crates/read_tag")):
        return 2
    listed = list(tags())
    differ = [found for tag in listed if (found := difference(read_tag, *tag))]
    for line in differ:
        print(f"differs: {line}")
    print(f"{len(listed) - len(differ)} read, {len(differ)} differ")
    return 1 if differ else 0


sys.exit(main(sys.argv[1:]))
