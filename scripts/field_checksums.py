#!/usr/bin/env python3
"""What crates/field_check must print: products as polynomials, shifted and reduced bit by bit, with no table.

    python3 scripts/field_checksums.py > crates/field_check/stdout     # some 20 s
"""

# Document 01, "Words and checks", whole polynomials.
POLYNOMIALS = {4: 0x13, 6: 0x43, 8: 0x12D, 10: 0x409, 12: 0x1069}

for bits, polynomial in POLYNOMIALS.items():
    size, checksum = 1 << bits, 0
    for a in range(size):
        shifted = []  # a x^i, reduced
        word = a
        for _ in range(bits):
            shifted.append(word)
            word <<= 1
            if word & size:
                word ^= polynomial
        # the product with b is that with b less its lowest bit, and one shifted a
        row = [0] * size
        for b in range(1, size):
            low = b & -b
            row[b] = row[b ^ low] ^ shifted[low.bit_length() - 1]
        for product in row:
            checksum = (checksum * 31 + product) % (1 << 32)
    print(bits, checksum)
