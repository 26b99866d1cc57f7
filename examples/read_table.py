#!/usr/bin/env python3
"""Reads entries of tables: examples/read_table.py DIR [FEN..]

Answers each FEN, or where none is given each line of the standard input, by a line with the class of the position, its index
in the table and what the entries there say of the side to move. Written from docs/FORMATS.md, docs/CLASSES.md and docs/RULES.md alone,
it needs Python 3.9 and nothing else: a second reading of the format, to start from in a program of one's own. A line that spells no
position, or whose table is missing or refused, is answered by the fault, as docs/FORMATS.md names it. Entries are taken as they stand:
`egtb check` is what judges them.
"""
import os
import sys

CLASSES = """KK KQK KRK KBK KNK KPK KQQK KQRK KQBK KQNK KRRK KRBK KRNK KBBK KBNK KNNK KQKQ KQKR KQKB KQKN KRKR KRKB KRKN KBKB KBKN
KNKN KQPK KRPK KBPK KNPK KQKP KRKP KBKP KNKP KPPK KPKP""".split()
HOMES = [0, 1, 2, 3, 9, 10, 11, 18, 19, 27]  # a1 b1 c1 d1 b2 c2 d2 c3 d3 d4: the white king's squares where there is no pawn


# What FEN's letters attack: steps of files and ranks, and whether they go on.
STEPS = {
    "K": ([(1, 0), (1, 1), (0, 1), (-1, 1), (-1, 0), (-1, -1), (0, -1), (1, -1)], False),
    "Q": ([(1, 0), (1, 1), (0, 1), (-1, 1), (-1, 0), (-1, -1), (0, -1), (1, -1)], True),
    "R": ([(1, 0), (0, 1), (-1, 0), (0, -1)], True),
    "B": ([(1, 1), (-1, 1), (-1, -1), (1, -1)], True),
    "N": ([(1, 2), (2, 1), (2, -1), (1, -2), (-1, -2), (-2, -1), (-2, 1), (-1, 2)], False),
    "P": ([(-1, 1), (1, 1)], False),
    "p": ([(-1, -1), (1, -1)], False),
}


class Refusal(Exception):
    """A line or a file is refused: what is printed of it."""


def refuse(number, name):
    raise Refusal(f"error fen {number} {name}")


def placed(field):
    """The men of a placement as pairs of letter and square, or None where it is none: eight ranks of eight squares each."""
    men, rows = [], field.split("/")
    for down, row in enumerate(rows):
        file = 0
        for sign in row:
            if sign in "12345678":
                file += int(sign)
            elif sign in "KQRBNPkqrbnp":
                men.append((sign, 8 * (7 - down) + file))
                file += 1
            else:
                return None
        if file != 8:
            return None
    return men if len(rows) == 8 else None


def attacks(men, letter, square, target):
    """Whether the man on the square attacks the target."""
    steps, goes_on = STEPS[letter if letter in "Pp" else letter.upper()]
    taken = {other for _, other in men}
    for across, along in steps:
        file, rank = square % 8 + across, square // 8 + along
        while 0 <= file < 8 and 0 <= rank < 8:
            if 8 * rank + file == target:
                return True
            if not goes_on or 8 * rank + file in taken:
                break
            file, rank = file + across, rank + along
    return False


def parse(fen):
    """The men as pairs of letter and square, the side to move (0 for White) and the square of the target or None. A FEN that spells no
    position is refused with its first fault, as docs/RULES.md has them."""
    fields = [field for field in fen.removesuffix("\r").split(" ") if field]
    if len(fields) not in (4, 6):
        refuse(1, "FieldCount")
    men = placed(fields[0])
    if men is None:
        refuse(2, "Placement")
    if fields[1] not in ("w", "b"):
        refuse(3, "Colour")
    if fields[2] != "-":
        refuse(4, "Castling")
    target = fields[3]
    if target != "-" and not (len(target) == 2 and target[0] in "abcdefgh" and target[1] in "36"):
        refuse(5, "EpField")
    if not all(1 <= len(clock) <= 9 and set(clock) <= set("0123456789") for clock in fields[4:]):
        refuse(6, "Counter")
    side = "wb".index(fields[1])
    square = None if target == "-" else 8 * (int(target[1]) - 1) + "abcdefgh".index(target[0])
    judge(men, side, square)
    return men, side, square


def judge(men, side, target):
    """Refuses what is no position."""
    if len(men) > 4:
        refuse(7, "MenCount")
    letters = [letter for letter, _ in men]
    if letters.count("K") != 1 or letters.count("k") != 1:
        refuse(8, "KingCount")
    if any(letter in "Pp" and square // 8 in (0, 7) for letter, square in men):
        refuse(9, "PawnRank")
    if target is not None:
        # The side that waits has just advanced a pawn by two over the target: he stands before it, and it and his home are empty.
        pawn, ahead, rank = ("p", -8, 5) if side == 0 else ("P", 8, 2)
        taken = {square for _, square in men}
        if target // 8 != rank or (pawn, target + ahead) not in men or target in taken or target - ahead in taken:
            refuse(10, "EpMismatch")
    king = next(square for letter, square in men if letter == "kK"[side])
    if any(attacks(men, letter, square, king) for letter, square in men if letter.isupper() == (side == 0)):
        refuse(11, "WaitingInCheck")


def settle(men, side, target):
    """The target, or None where no pawn of the side to move stands ready to take."""
    pawn, back = ("P", -8) if side == 0 else ("p", 8)
    beside = [square + back for square in (target - 1, target + 1) if square // 8 == target // 8] if target is not None else []
    return target if any((pawn, square) in men for square in beside) else None


def name_of(men):
    """The name that the men have if White's are named first."""
    letters = sorted((letter for letter, _ in men), key=lambda letter: (letter.islower(), "KQRBNP".index(letter.upper())))
    return "".join(letters).upper()


def turned(square, symmetry):
    """The square under one of the eight symmetries."""
    file, rank = square % 8, square // 8
    file = 7 - file if symmetry & 1 else file
    rank = 7 - rank if symmetry & 2 else rank
    return 8 * file + rank if symmetry & 4 else 8 * rank + file


def flipped(men, side):
    """Men and side to move with colours exchanged and ranks mirrored."""
    return [(letter.swapcase(), square ^ 56) for letter, square in men], 1 - side


def codes(name, men, side, has_target):
    """The codes of one image: none where its white king is not at home, two where two men are equal."""
    squares = {letter: sorted(square for other, square in men if other == letter) for letter, _ in men}
    king = squares["K"][0]
    has_pawn = "P" in name
    if king % 8 > 3 if has_pawn else king not in HOMES:
        return
    cut = name.rindex("K")
    order = ["K", "k", *name[1:cut], *name[cut + 1 :].lower()]
    for pick in (1, -1):
        left = {letter: found[::pick] for letter, found in squares.items()}
        code = 4 * (king // 8) + king % 8 if has_pawn else HOMES.index(king)
        for letter in order[1:]:
            square = left[letter][0]
            left[letter] = left[letter][1:]
            code = 48 * code + square - 8 if letter in "Pp" else 64 * code + square
        code = 2 * code + side
        yield 2 * code + has_target if "P" in name[:cut] and "P" in name[cut:] else code


def index_of(fen):
    """The class of the position, and its index: the least code of any image."""
    men, side, target = parse(fen)
    has_target = settle(men, side, target) is not None
    found = []
    for these, mover in ((men, side), flipped(men, side)):
        name = name_of(these)
        if name in CLASSES:
            for symmetry in range(2 if "P" in name else 8):
                image = [(letter, turned(square, symmetry)) for letter, square in these]
                found.extend((name, code) for code in codes(name, image, mover, has_target))
    return min(found)


def words(column, entry):
    """What an entry says."""
    if entry == 0:
        return "no position"
    if column == 2:
        return "dead" if entry == 1 else f"nearest mate in {entry - 2}"
    return "draw" if entry == 1 else f"{'loss' if entry % 2 else 'win'} in {entry // 2 - 1}"


def number(data):
    return int.from_bytes(data, "little")


def size_of(name):
    """How many codes a class has: a place for the white king, 64 for each other man and 48 for a pawn, and two sides to move; twice as many where
    both sides have a pawn."""
    men = len(name) - 2
    pawns = name.count("P")
    both = "P" in name[: name.rindex("K")] and "P" in name[name.rindex("K") :]
    return (32 if pawns else len(HOMES)) * 64 * 64 ** (men - pawns) * 48**pawns * 2 * (2 if both else 1)


def columns_of(name, header, length):
    """How many columns a file of the class with this header and length has, or the first of its faults."""

    def refused(number, fault):
        raise Refusal(f"error {name} file {number} {fault}")

    if len(header) < 16:
        refused(2, "Short")
    if header[:4] != b"EGTB":
        refused(3, "Magic")
    version = number(header[4:6])
    if version not in (1, 2):
        refused(4, "Version")
    if number(header[6:8]) != 1:
        refused(5, "Layout")
    if number(header[8:10]) != CLASSES.index(name):
        refused(6, "Class")
    columns = number(header[10:12])
    if columns != version + 1:
        refused(7, "Columns")
    count = number(header[12:])
    if count != size_of(name):
        refused(8, "Count")
    if length != 16 + 2 * columns * count:
        refused(2, "Short") if length < 16 + 2 * columns * count else refused(9, "Trailing")
    return columns


def answer(folder, fen):
    """The line that is printed of a FEN."""
    if len(fen.encode(errors="surrogateescape")) > 1024:
        raise Refusal("error probe 14 LongLine")
    name, index = index_of(fen)
    path = f"{folder}/{name}.egt"
    if not os.path.exists(path):
        raise Refusal(f"error probe 11 Missing {name}")
    with open(path, "rb") as file:
        header = file.read(16)
        columns = columns_of(name, header, os.fstat(file.fileno()).st_size)
        count, said = size_of(name), []
        for column in range(columns):
            file.seek(16 + 2 * count * column + 2 * index)
            said.append(words(column, number(file.read(2))))
    return f"{name} index {index} " + ", ".join(what + said for what, said in zip(("mate ", "zeroing ", "reach "), said))


def main():
    if len(sys.argv) < 2:
        sys.exit("usage: read_table.py DIR [FEN..]")
    folder, fens = sys.argv[1], sys.argv[2:]
    sys.stdin.reconfigure(encoding="utf-8", errors="surrogateescape", newline="\n")
    for fen in fens or sys.stdin:
        try:
            print(answer(folder, fen.removesuffix("\n")))
        except Refusal as why:
            print(why)


if __name__ == "__main__":
    main()
