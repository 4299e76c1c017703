#!/usr/bin/env python3
"""Writes crates/trials/src/digests.rt: digests by Python's hashlib (OpenSSL) of the messages of 0 to 130 bytes
whose byte i is (7 i + 3) mod 256."""
import hashlib
import pathlib

out = pathlib.Path(__file__).resolve().parent.parent / "crates/trials/src/digests.rt"
pattern = bytes((7 * i + 3) % 256 for i in range(130))
rows = [f'    "{hashlib.sha256(pattern[:n]).hexdigest()}",\n' for n in range(131)]
out.write_text(
    "// Digests of the messages of 0 to 130 bytes whose byte i is (7 i + 3) mod 256, by Python's hashlib:\n"
    "// tools/sha256_vectors.py writes this file.\n"
    "pub(crate) const LONGEST: usize = 130;\n\n"
    "pub(crate) const DIGESTS: [&str; 131] = [\n" + "".join(rows) + "];\n"
)
