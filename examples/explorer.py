#!/usr/bin/env python3
"""A board that shows what the tables of a folder say.

    examples/explorer.py DIR [--port N]    serves http://127.0.0.1:N/ to this machine alone, until Ctrl-C; N is 8064 where it is not given
    examples/explorer.py DIR FEN           prints the board, the verdict, the moves and the best line

Needs Python 3.9, the files beside it and libegtb.so (scripts/install PREFIX makes it): named by --library PATH or by the environment's
EGTB_LIBRARY, or else the system's. Classes that are missing or refused are left out, and said.
"""
import argparse
import json
import os
import random
import sys
import threading
import traceback
from contextlib import suppress
from http.server import BaseHTTPRequestHandler, ThreadingHTTPServer
from typing import Dict, List, NamedTuple, Optional, Tuple
from urllib.parse import unquote

from egtb import CLASSES, Answer, EgtbError, Library
from read_table import HOMES, attacks, parse, size_of

LONGEST_QUERY = 400
LAWS = "FIDE Laws of Chess 2023, article"
POLICY = "default-src 'none'; style-src 'unsafe-inline'; script-src 'unsafe-inline'; connect-src 'self'; frame-ancestors 'none'"
WORDS = {
    "FieldCount": "a FEN has four fields or six, with spaces between them.",
    "Placement": "the first field of a FEN is eight ranks of eight squares: letters for men, digits for empty squares.",
    "Colour": "the second field of a FEN is the side to move, w or b.",
    "Castling": "nobody may castle here: the third field of the FEN has to be a dash.",
    "EpField": "the fourth field of a FEN is the square that a pawn has just passed, as e3, or a dash.",
    "Counter": "the last two fields of a FEN are numbers.",
    "MenCount": "there are more than four men on the board.",
    "KingCount": "each side has to have one king.",
    "PawnRank": "no pawn may stand on the first rank or the last.",
    "EpMismatch": "no pawn can have passed the en passant square in the last move.",
    "WaitingInCheck": "the king of the side that is not to move is in check.",
}


def square(text: str) -> int:
    return 8 * (int(text[1]) - 1) + "abcdefgh".index(text[0])


class Position(NamedTuple):
    """The men by their squares, the side to move and the square that a pawn has just passed."""

    men: Dict[int, str]
    side: str
    target: Optional[int] = None

    @staticmethod
    def of(fen: str) -> "Position":
        men, side, target = parse(fen)
        return Position({at: letter for letter, at in men}, "wb"[side], target)

    def rows(self) -> List[str]:
        return ["".join(self.men.get(8 * rank + file, "1") for file in range(8)) for rank in range(7, -1, -1)]

    def fen(self) -> str:
        text = "/".join(self.rows())
        for run in range(8, 1, -1):
            text = text.replace("1" * run, str(run))
        passed = "-" if self.target is None else "abcdefgh"[self.target % 8] + str(self.target // 8 + 1)
        return f"{text} {self.side} - {passed} 0 1"

    def check(self) -> bool:
        king = next(at for at, letter in self.men.items() if letter == ("K" if self.side == "w" else "k"))
        men = [(letter, at) for at, letter in self.men.items()]
        return any(attacks(men, letter, at, king) for letter, at in men if letter.islower() == (self.side == "w"))

    def after(self, move: str) -> "Position":
        """The position after a legal move."""
        here, there, men = square(move[:2]), square(move[2:4]), dict(self.men)
        letter = men.pop(here)
        if letter in "Pp" and there == self.target:
            del men[there + (-8 if self.side == "w" else 8)]
        men[there] = (move[4:].upper() if self.side == "w" else move[4:]) or letter
        passed = (here + there) // 2 if letter in "Pp" and abs(there - here) == 16 else None
        return Position(men, "b" if self.side == "w" else "w", passed)

    def written(self, move: str, legal: List[str]) -> str:
        """A legal move as players write it, as Rxd8, without check and mate (PGN standard of 1994, section 8.2.3)."""
        man, origin, becomes = self.men[square(move[:2])], "", "=" + move[4:].upper() if move[4:] else ""
        if man in "Pp":
            return (move[0] + "x" if move[0] != move[2] else "") + move[2:4] + becomes
        rivals = [other for other in legal if other[2:4] == move[2:4] and other[:2] != move[:2] and self.men[square(other[:2])] == man]
        if rivals:  # one, of at most four men
            origin = move[1] if rivals[0][0] == move[0] else move[0]
        return man.upper() + origin + ("x" if square(move[2:4]) in self.men else "") + move[2:4]


class Tables:
    """The library, and what is known of its classes: of each that is loaded its longest win and loss, of each other why it is not."""

    def __init__(self, folder: str, path: Optional[str]) -> None:
        self.folder, self.library, self.is_loaded = folder, Library(folder, classes=(), library=path), False
        self.longest, self.missing = {}, {}

    def load(self, name: str) -> None:
        """Loads a class, and before it those that it rests on."""
        while name not in self.longest and name not in self.missing:
            try:
                with open(os.path.join(self.folder, f"{name}.egt"), "rb") as file:
                    data = file.read()
                self.library.add(name, data)
                self.longest[name] = longest(name, data)
            except (OSError, MemoryError) as why:
                self.missing[name] = "there is no file" if isinstance(why, FileNotFoundError) else f"its file cannot be read, {why}"
            except EgtbError as why:
                if why.name == "Missing" and why.class_name not in self.missing:
                    self.load(why.class_name)
                else:
                    self.missing[name] = f"it rests on {why.class_name}" if why.name == "Missing" else f"it is refused, {why}"

    def load_all(self) -> None:
        for name in CLASSES:
            self.load(name)
        self.is_loaded = True
        missing = "".join(f"\n{name}: {why}" for name, why in self.missing.items())
        print(f"{len(self.longest)} of {len(CLASSES)} classes are loaded{missing}", flush=True)

    def state(self) -> dict:
        """How far loading is, and in the end what is loaded."""
        if not self.is_loaded:
            seen = len(self.longest) + len(self.missing)
            return {"loading": seen, "of": len(CLASSES), "verdict": f"Loading the tables: {seen} of {len(CLASSES)} classes."}
        loaded = [{"name": name, "dead": dead, **self.longest[name]} for name, dead in self.library.loaded().items()]
        return {"of": len(CLASSES), "loaded": loaded, "missing": self.missing}

    def one(self, here: Position, move: str, legal: List[str], answer: Optional[Answer]) -> dict:
        """A legal move as it is shown, with what it leads to."""
        after = here.after(move)
        stuck, text = not self.library.legal_moves(after.fen()), here.written(move, legal)
        text += ("#" if stuck else "+") if after.check() else ""
        kind, words, _ = in_words(answer, here.side, stuck) if answer else ("unknown", "not loaded", "")
        return {"move": move, "text": text, "fen": after.fen(), "kind": kind, "words": words}

    def line(self, here: Position) -> List[dict]:
        """Best play to checkmate, numbered as players write it."""
        line, ply = [], int(here.side == "b")
        while move := self.library.move(here.fen()):
            after = here.after(move)
            told = self.one(here, move, self.library.legal_moves(here.fen()), self.library.verdict(after.fen()))
            number = f"{ply // 2 + 1}. " if ply % 2 == 0 else "" if line else "1... "
            line.append({**told, "text": number + told["text"]})
            here, ply = after, ply + 1
        return line

    def tell(self, fen: str) -> dict:
        """All that is shown of a position, or what is wrong with it. Where its class is not loaded its moves come without verdicts."""
        try:
            legal = self.library.legal_moves(fen)
        except EgtbError as why:
            return {"kind": "fault", "verdict": f"{why.name}: {WORDS[why.name]}", "moves": [], "line": []}
        here = Position.of(fen)
        try:
            answer = self.library.verdict(fen)
        except EgtbError as why:
            words = f"{why.name}: the table of {why.class_name} is not loaded; {self.missing[why.class_name]}."
            moves = [self.one(here, move, legal, None) for move in legal]
            return {"kind": "fault", "verdict": words, "fen": here.fen(), "moves": moves, "line": []}
        kind, _, words = in_words(answer, here.side, not legal)
        moves = [self.one(here, entry.move, legal, entry.after) for entry in self.library.root(fen)]
        line = self.line(here) if kind in ("win", "loss") else []
        return {"kind": kind, "verdict": words, "class": answer.class_name, "fen": here.fen(), "moves": moves, "line": line}

    def ask(self, text: str) -> dict:
        """The answer to a query: "state"; "random", "win" or "loss" and a class; or a FEN."""
        kind, _, name = text.partition(" ")
        if text == "state" or not self.is_loaded:
            return self.state()
        if kind not in ("random", "win", "loss") or name not in self.longest:
            return self.tell(text)
        if kind == "random":
            return self.tell(self.at_random(name))
        told = self.longest[name][kind]
        return self.tell(told[1]) if told else {"note": f"{name} has no forced {kind}."}

    def at_random(self, name: str) -> str:
        """A position of the class: men on squares at random, until they are one, which they are about every second time."""
        cut = name.rindex("K")
        letters = name[:cut] + name[cut:].lower()
        while True:
            men = dict(zip(random.sample(range(64), len(letters)), random.choice((letters, letters.swapcase()))))
            fen = Position(men, random.choice("wb")).fen()
            with suppress(EgtbError):
                self.library.legal_moves(fen)
                return fen


def longest(name: str, data: bytes) -> Dict[str, Optional[list]]:
    """The plies and the first position of the longest win and of the longest loss of the side to move, in the file of a true table
    (docs/FORMATS.md)."""
    # No mate of four men is deeper than 85 plies (egtb.h), so the low bytes of the entries say all. Which there are among millions is found
    # by striking out all that are like one of the first: that takes milliseconds, and a loop in Python seconds.
    low = data[16 : 16 + 2 * size_of(name) : 2]
    left, there = low, set()
    while left:
        there.update(left[:4096])
        left = left.translate(None, bytes(there))
    wins, losses = ({entry for entry in there if entry > 2 and entry % 2 == odd} for odd in (0, 1))
    return {kind: [max(found) // 2 - 1, spelled(name, low.index(max(found)))] if found else None
            for kind, found in (("win", wins), ("loss", losses))}


def spelled(name: str, code: int) -> str:
    """The FEN of the position that a code spells (docs/CLASSES.md)."""
    cut, has_target, men, target = name.rindex("K"), 0, {}, None
    ours, theirs = name[1:cut], name[cut + 1 :].lower()
    if "P" in ours and "p" in theirs:
        code, has_target = divmod(code, 2)
    code, side = divmod(code, 2)
    for letter in reversed("k" + ours + theirs):
        code, digit = divmod(code, 48 if letter in "Pp" else 64)
        men[digit + 8 if letter in "Pp" else digit] = letter
    men[8 * (code // 4) + code % 4 if "P" in name else HOMES[code]] = "K"
    if has_target:
        # Each side has one pawn: that of the side that waits has just passed the square behind it.
        target = next(at + (-8, 8)[side == 0] for at, letter in men.items() if letter == "pP"[side])
    return Position(men, "wb"[side], target).fen()


def in_words(answer: Answer, side: str, stuck: bool) -> Tuple[str, str, str]:
    """How play ends for the side ("win", "loss", "draw" or "dead"), in a few words and in all; `stuck` says that there is no legal move."""
    if answer.outcome == "dead":
        return "dead", "dead position", f"Dead position: no legal moves of both sides lead to checkmate, so it is a draw ({LAWS} 5.2.2)."
    if answer.outcome == "draw":
        return "draw", *(("stalemate", f"Stalemate: a draw ({LAWS} 5.2.1).") if stuck else ("draw", "Draw: neither side can force mate."))
    winner = answer.outcome.split()[0].capitalize()
    kind, mates = "win" if winner[0].lower() == side else "loss", f"{winner} mates in {answer.plies}"
    if stuck:
        return kind, "checkmate", f"Checkmate: {winner} has won."
    plies = "ply" if answer.plies == 1 else "plies"
    return kind, mates, f"{mates} {plies}; next capture or move of a pawn, or mate, in {answer.zeroing}."


class Handler(BaseHTTPRequestHandler):
    """Answers for the page and for its query, and for nothing else. No request names a file."""

    timeout = 10  # seconds, for who asks slowly

    def do_GET(self) -> None:
        path, _, query = self.path.partition("?")
        # The name of a page from elsewhere may be made to lead here; the browser then says that name.
        if self.headers.get("Host") not in [f"{host}:{self.server.server_port}" for host in ("127.0.0.1", "localhost")]:
            self.send_error(400)
        elif self.path == "/":
            self.send(200, "text/html", self.server.page)
        elif path == "/ask" and len(query) <= LONGEST_QUERY:
            self.send(200, "application/json", json.dumps(self.server.tables.ask(unquote(query))).encode())
        else:
            self.send_error(400 if path == "/ask" else 404)

    def send(self, status: int, kind: str, body: bytes) -> None:
        self.send_response(status)
        for name, value in (("Content-Type", f"{kind}; charset=utf-8"), ("Content-Length", str(len(body))), ("Cache-Control", "no-store"),
                            ("X-Content-Type-Options", "nosniff"), ("Content-Security-Policy", POLICY)):
            self.send_header(name, value)
        self.end_headers()
        self.wfile.write(body)

    def send_error(self, code, message=None, explain=None) -> None:
        # The standard library has finer numbers for what it cannot read.
        self.close_connection = True
        self.send(404 if code == 404 else 400, "text/plain", b"Here are / and /ask alone.\n")

    def log_message(self, *words) -> None:
        """Says nothing: what a browser asks for is no business of the terminal."""


def serve(tables: Tables, port: int) -> None:
    with open(os.path.join(os.path.dirname(__file__), "explorer.html"), "rb") as file:
        page = file.read()
    with ThreadingHTTPServer(("127.0.0.1", port), Handler) as server:
        server.tables, server.page = tables, page
        # A browser that asks for the next position hangs up on the one before, which is worth no words.
        server.handle_error = lambda *_: isinstance(sys.exc_info()[1], OSError) or traceback.print_exc()
        print(f"http://127.0.0.1:{server.server_port}/ (Ctrl-C ends it)", flush=True)
        threading.Thread(target=tables.load_all, daemon=True).start()
        server.serve_forever()


def show(tables: Tables, fen: str) -> int:
    """Prints what the page shows of a position, of the tables that it needs alone; 1 where something is wrong with it."""
    try:
        tables.library.verdict(fen)
    except EgtbError as why:
        # The library is empty yet, and says of a position which class it wants.
        if why.name == "Missing":
            tables.load(why.class_name)
    told = tables.tell(fen)
    if "fen" in told:
        here = Position.of(fen)
        for down, row in enumerate(here.rows()):
            print(8 - down, *row.replace("1", "."))
        print(f"  a b c d e f g h\n\n{'White' if here.side == 'w' else 'Black'} to move.", end=" ")
    print(told["verdict"])
    for move in told["moves"]:
        print(f"  {move['text']:8}{move['words']}")
    if told["line"]:
        print("Best line:", *(move["text"] for move in told["line"]))
    return int(told["kind"] == "fault")


def main() -> None:
    words = argparse.ArgumentParser(description="Shows what the tables of a folder say of positions, in a browser or in the terminal.")
    words.add_argument("folder", metavar="DIR", help="the folder of the tables (scripts/build-all DIR builds them)")
    words.add_argument("fen", metavar="FEN", nargs="?", help="a position, to be shown in the terminal")
    words.add_argument("--port", type=int, default=8064, help="where the page is served on 127.0.0.1 (8064)")
    words.add_argument("--library", metavar="PATH", help="libegtb.so, else as EGTB_LIBRARY says (scripts/install PREFIX makes it)")
    given = words.parse_args()
    if not os.path.isdir(given.folder):
        words.error(f"there is no folder {given.folder}")
    try:
        tables = Tables(given.folder, given.library)
    except (OSError, AttributeError) as why:
        words.error(f"no libegtb.so ({why}): scripts/install PREFIX makes it, and --library PREFIX/lib/libegtb.so names it")
    if given.fen is not None:
        sys.exit(show(tables, given.fen.encode(errors="replace").decode()))
    try:
        with suppress(KeyboardInterrupt):
            serve(tables, given.port)
    except (OSError, OverflowError) as why:
        words.error(f"no page on port {given.port}: {why}")


if __name__ == "__main__":
    main()
