#!/usr/bin/env python3
"""Writes crates/trials/src/signatures.rt: public keys and signatures of the one-time scheme, built from the rules in
docs/RULES.md with Python's hashlib alone."""
import hashlib
import pathlib

out = pathlib.Path(__file__).resolve().parent.parent / "crates/trials/src/signatures.rt"
CHAINS, END, LEVELS, TURNS = 67, 15, 5, 32


def h(*parts):
    return hashlib.sha256(b"".join(bytes([p]) if isinstance(p, int) else p for p in parts)).digest()


def walk(turn, chain, start, stop, value):
    for position in range(start, stop):
        value = h(1, turn, chain, position, value)
    return value


def digits(digest):
    first = [d for byte in digest for d in (byte >> 4, byte & 15)]
    total = sum(15 - d for d in first)
    return first + [total // 256, total // 16 % 16, total % 16]


def chain(secret, turn, i, position):
    return walk(turn, i, 0, position, h(0, turn, i, secret))


def leaf(turn, ends):
    return h(2, turn, b"".join(ends))


def levels(secret):
    tree = [[leaf(t, [chain(secret, t, i, END) for i in range(CHAINS)]) for t in range(TURNS)]]
    for v in range(LEVELS):
        below = tree[v]
        tree.append([h(3, v, below[2 * i], below[2 * i + 1]) for i in range(len(below) // 2)])
    return tree


def sign(tree, secret, turn, digest):
    values = [chain(secret, turn, i, d) for i, d in enumerate(digits(digest))]
    return values + [tree[v][(turn >> v) ^ 1] for v in range(LEVELS)]


assert digits(bytes(32))[64:] == [3, 12, 0]
SECRETS = [bytes(32), bytes(range(32)), hashlib.sha256(b"seat 0").digest()]
DIGESTS = [bytes(32), bytes([255] * 32), hashlib.sha256(b"state").digest()]
text = (
    "// Public keys and signatures of the one-time scheme, by tools/onetime_vectors.py: 64 hexadecimal digits stand for\n"
    "// 32 bytes, and a signature has 72 such parts.\n"
    "pub(crate) struct Vector {\n"
    "    pub(crate) secret: &'static str,\n"
    "    pub(crate) public: &'static str,\n"
    "    pub(crate) turn: u8,\n"
    "    pub(crate) digest: &'static str,\n"
    "    pub(crate) signature: [&'static str; 72],\n"
    "}\n\n"
)
for name, secret, turn, digest in zip(["FIRST", "MIDDLE", "LAST"], SECRETS, [0, 13, 31], DIGESTS):
    tree = levels(secret)
    text += f"pub(crate) const {name}: Vector = Vector {{\n"
    text += f'    secret: "{secret.hex()}",\n    public: "{tree[LEVELS][0].hex()}",\n    turn: {turn},\n'
    text += f'    digest: "{digest.hex()}",\n    signature: [\n'
    text += "".join(f'        "{part.hex()}",\n' for part in sign(tree, secret, turn, digest))
    text += "    ],\n};\n\n"
out.write_text(text.rstrip("\n") + "\n")
