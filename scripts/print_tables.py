#!/usr/bin/env python3
"""Prints the tables of powers and logarithms of the five fields as Rattle constants.

    python3 scripts/print_tables.py > crates/finite_field/src/tables.rt

The gate compares its output with that file, which stands in rt fmt's layout; what
the entries must be is proved in crates/finite_field/specs/Tables.antt, not here.
"""
import textwrap

# Document 01, "Words and checks": the polynomial of each word size, less its leading term.
POLYNOMIALS = {4: 0b11, 6: 0b11, 8: 0b101101, 10: 0b1001, 12: 0b1101001}

HEADER = """\
// The powers of x and the logarithms of words in the fields of the five word sizes: entry k of POWERS_b is x ^ k, entry a of LOGS_b the
// exponent of the word a (0 has none, and its entry is 0). They are statics, which are lent and never copied. As in the definitions, a
// size other than 4, 6, 8 and 10 stands for 12. Printed by scripts/print_tables.py, in the layout of rt fmt.
ghost use Rattle.std.specs.Prelude.{◌≡◌};
ghost use Rattle.finite_field.specs.Field.{size_of};
ghost use Rattle.finite_field.specs.Tables.{powers, logs};
"""

# rt fmt's lines have so many characters at most, and one less where it fills them.
WIDTH = 100


def tables(bits):
    size = 1 << bits
    powers, logs, word = [], [0] * size, 1
    for exponent in range(size):
        powers.append(word)
        if exponent < size - 1:
            logs[word] = exponent
        word <<= 1
        if word >= size:
            word = (word - size) ^ POLYNOMIALS[bits]
    return powers, logs


def constant(name, entries):
    """On one line where it fits, else filled lines."""
    listed = ", ".join(map(str, entries))
    head = f"static {name}: [u16; {len(entries)}] = ["
    line = f"{head}{listed}];"
    if len(line) <= WIDTH:
        return line
    rows = textwrap.fill(f"{listed},", WIDTH - 1, initial_indent="    ", subsequent_indent="    ")
    return f"{head}\n{rows}\n];"


def lookup(kind, comment):
    *others, last = POLYNOMIALS
    arms = "".join(f"        {bits} => &{kind.upper()}_{bits},\n" for bits in others)
    return f"""
// {comment}
pub fn {kind}(size: u32) -> &'static [u16]
    ensures {{ result.now ≡ {kind} (size_of size) }}
{{
    match size {{
{arms}        _ => &{kind.upper()}_{last},
    }}
}}
"""


def main():
    print(HEADER, end="")
    for bits in POLYNOMIALS:
        powers, logs = tables(bits)
        print("\n" + constant(f"POWERS_{bits}", powers))
        print("\n" + constant(f"LOGS_{bits}", logs))
    print(lookup("powers", "The powers of x, in the field of words of `size` bits."), end="")
    print(lookup("logs", "The logarithms of words, in the same field."), end="")


main()
