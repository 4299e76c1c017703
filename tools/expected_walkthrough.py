#!/usr/bin/env python3
"""Writes crates/walkthrough/stdout from the two recorded matches and the rules, with Python's hashlib for the digests.

Nothing here is taken from the program: states are laid out anew, and each verdict is what the rules say of the move.
"""
import hashlib
import pathlib

out = pathlib.Path(__file__).resolve().parent.parent / "crates/walkthrough/stdout"
KINDS = ["PreFund", "PostFund", "Game", "Conclude"]
SALT = b"the salt of seat 0, thirty-two b"
COMMITMENT = hashlib.sha256(bytes([2]) + SALT).digest()


def state(match, code, turn, kind, seat0, seat1, data=b""):
    head = b"FMS\x00\x01" + (1).to_bytes(4, "big") + bytes([match, code, turn, kind])
    return head + seat0.to_bytes(8, "big") + seat1.to_bytes(8, "big") + data.ljust(67, b"\0")


def board(phase, crosses, noughts):
    return bytes([phase]) + crosses.to_bytes(2, "big") + noughts.to_bytes(2, "big")


FUNDING = [(0, "agrees to the dues"), (0, "agrees to the dues"), (1, "confirms the deposits"), (1, "confirms the deposits")]


def told(match, code, game, last):
    rows = [(kind, 6, 4, b"", words) for kind, words in FUNDING]
    rows += [(2, *g) for g in game]
    rows += [(3, *last, b"", "concludes")] * 2
    lines = []
    digests = []
    for turn, (kind, a, b, data, words) in enumerate(rows):
        digest = hashlib.sha256(state(match, code, turn, kind, a, b, data)).hexdigest()[:8]
        digests.append(digest)
        verdict = "lawful" if turn else "proper"
        lines.append(f"  turn {turn:>2}  seat {turn % 2}  {KINDS[kind]:<8}  {a}:{b}  {digest}  {verdict}  {words}")
    lines += ["Every state is proper and every step lawful: the match is good to its end.", ""]
    return lines, digests


def signed(scheme, length, matches):
    lines = [f"Signed by the {scheme} scheme:"]
    lines += [f"  key {key} is enrolled" for key in range(4)]
    lines += ["  key 0 again: refused 32: the key is enrolled already (scheme, match 0)"]
    for match, digests in enumerate(matches):
        lines += [f"  match {match}:"]
        for turn, digest in enumerate(digests):
            key = 2 * match + turn % 2
            lines += [f"  turn {turn:>2}  key {key}  digest {digest}  signed in {length} bytes, and it checks"]
    lines += ["Every state of both matches is signed by its mover, and every signature checks.", ""]
    lines += ["What else this scheme is asked:"] + [f"  {what}: {said}" for what, said in ASKED] + [""]
    return lines


THROWS = [
    (6, 4, b"\x01" + COMMITMENT, "commits to a throw"),
    (4, 6, b"\x02" + COMMITMENT + b"\x01", "throws rock"),
    (8, 2, b"\x03" + COMMITMENT + b"\x01\x02" + SALT, "shows paper"),
    (8, 2, b"", "clears the table"),
]
MARKS = [
    (8, 2, board(1, 16, 0), "sets a cross into cell 4"),
    (4, 6, board(1, 16, 1), "sets a nought into cell 0"),
    (8, 2, board(1, 20, 1), "sets a cross into cell 2"),
    (4, 6, board(1, 20, 3), "sets a nought into cell 1"),
    (8, 2, board(2, 84, 3), "sets a cross into cell 6"),
    (8, 2, b"", "clears the table"),
]
UNLAWFUL = "refused 8: the step is not lawful"
WRONG = [
    ("a throw that does not match its commitment", f"{UNLAWFUL} (game, match 0, seat 0, turn 6)"),
    ("paper on rock for one stake instead of two", f"{UNLAWFUL} (game, match 0, seat 0, turn 6)"),
    ("a Conclude with other amounts", f"{UNLAWFUL} (turn rules, match 0, seat 0, turn 6)"),
    ("amounts kept at a first mark", f"{UNLAWFUL} (game, match 1, seat 0, turn 4)"),
    ("a full board called a draw over a line", f"{UNLAWFUL} (game, match 1, seat 0, turn 12)"),
    ("a Game state at turn 26", "refused 4: the kind does not fit the turn (turn rules, match 1)"),
    ("a move that leaves out a turn", "refused 7: the later turn is not one more (turn rules, match 1, seat 1, turn 5)"),
    ("a state that is cut short", "refused 1: the state has a wrong length (turn rules, match 1)"),
    ("a state with another mark", "refused 2: the mark or the version is not that of a state (turn rules, match 1)"),
    ("a state of another match", "refused 3: the state is of another docket, match or game (turn rules, match 1)"),
    (
        "amounts above the total",
        "refused 5: the amounts or the data are not what the match allows (turn rules, match 1, seat 0, turn 4)",
    ),
]

ASKED = [
    ("a state as it was signed", "the check says yes"),
    ("the state with a changed byte", "the check says no"),
    ("an unknown key", "the check says no"),
    ("a signature with a changed or an added byte", "the check says no"),
    ("a wrong secret", "refused 14: the secret does not fit the key (scheme, match 0)"),
    ("a spent turn", "refused 31: the turn is spent (scheme, match 0)"),
    ("an unknown key that signs", "refused 33: the key is not enrolled (scheme, match 4)"),
    ("a turn that is too late", "refused 12: an argument is outside its limits (scheme, match 0)"),
]

throws, throw_digests = told(0, 1, THROWS, (8, 2))
marks, mark_digests = told(1, 2, MARKS, (8, 2))
lines = [f"The house has a game of code {code}." for code in (1, 2)]
lines += ["Two matches of docket 1 were recorded, each with dues 6 and 4 and a stake of 2.", ""]
lines += ["Match 0, Rock-Paper-Scissors:"] + throws
lines += ["Match 1, Tic-Tac-Toe:"] + marks
lines += ["Moves that are wrong, and what they get:"]
lines += [f"  {what}: {said}" for what, said in WRONG] + [""]
lines += signed("register", 0, [throw_digests, mark_digests])
lines += signed("one-time", 2304, [throw_digests, mark_digests])
out.write_text("\n".join(lines) + "\n")
