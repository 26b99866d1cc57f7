#!/usr/bin/env python3
"""egtb's library by ctypes: needs Python 3.8 and libegtb.so (scripts/install PREFIX makes it), and no package.

    from egtb import Library
    with Library("tables", library="PREFIX/lib/libegtb.so") as tables:
        tables.verdict("k7/8/1K6/8/8/8/8/3Q4 b - - 0 1")    # Answer(class_name='KQK', outcome='white mates', plies=2, zeroing=2)
        tables.root("k7/8/1K6/8/8/8/8/3Q4 b - - 0 1")       # [RootMove(move='a8b8', after=Answer(.., plies=1, ..))], best first

Beside python-chess a board gives its FEN, and the moves are in its notation:

    import chess
    board = chess.Board("k7/8/1K6/8/8/8/8/3Q4 b - - 0 1")
    while not board.is_game_over():
        board.push_uci(tables.move(board.fen(en_passant="fen")))

Where the library is looked for: the argument `library`, else the environment's EGTB_LIBRARY, else libegtb.so of the system. A fault is an
`EgtbError` with the family, the number and the name that `egtb` prints. One Library may be asked from any number of threads once it is made.
"""
import ctypes
import os
from typing import Callable, Dict, List, NamedTuple, Optional, Sequence

CLASSES = """KK KQK KRK KBK KNK KPK KQQK KQRK KQBK KQNK KRRK KRBK KRNK KBBK KBNK KNNK KQKQ KQKR KQKB KQKN KRKR KRKB KRKN KBKB KBKN
KNKN KQPK KRPK KBPK KNPK KQKP KRKP KBKP KNKP KPPK KPKP""".split()
OUTCOMES = ("draw", "dead", "white mates", "black mates")
FAMILIES = ("", "fen", "file", "check", "probe", "call")
KINDS = {"P": 1, "N": 2, "B": 3, "R": 4, "Q": 5, "K": 6}
NO_SQUARE = 64


class _Library(ctypes.Structure):
    _fields_ = [("at", ctypes.c_void_p), ("is_open", ctypes.c_bool)]


class _Fault(ctypes.Structure):
    _fields_ = [(name, ctypes.c_uint8) for name in ("family", "number", "class_number", "column", "rule")] + [("index", ctypes.c_uint32)]


class _Answer(ctypes.Structure):
    _fields_ = [("class_number", ctypes.c_uint8), ("outcome", ctypes.c_uint8), ("plies", ctypes.c_uint16), ("zeroing", ctypes.c_uint16)]


class _Best(ctypes.Structure):
    _fields_ = [("text", ctypes.c_char * 6)]


class _RootMove(ctypes.Structure):
    _fields_ = [("move", _Best), ("after", _Answer)]


class _RootMoves(ctypes.Structure):
    _fields_ = [("count", ctypes.c_uint8), ("moves", _RootMove * 64)]


class _Moves(ctypes.Structure):
    _fields_ = [("count", ctypes.c_uint8), ("moves", _Best * 64)]


class _Man(ctypes.Structure):
    _fields_ = [("square", ctypes.c_uint8), ("side", ctypes.c_uint8), ("kind", ctypes.c_uint8)]


class _Position(ctypes.Structure):
    _fields_ = [("count", ctypes.c_uint8), ("men", _Man * 4), ("side", ctypes.c_uint8), ("target", ctypes.c_uint8)]


class EgtbError(Exception):
    """Why a call gave no answer: `family` ("fen", "file", "check", "probe" or "call"), `number` and `name` as docs/FORMATS.md has them, and
    where the fault names one, `class_name`."""

    def __init__(self, family: str, number: int, name: str, class_name: str = "") -> None:
        super().__init__(f"error {family} {number} {name} {class_name}".rstrip())
        self.family, self.number, self.name, self.class_name = family, number, name, class_name


class Answer(NamedTuple):
    """The class of a position and how play ends: "draw", "dead", "white mates" or "black mates", in plies to mate and to the next capture, move
    of a pawn or checkmate."""

    class_name: str
    outcome: str
    plies: int
    zeroing: int


class RootMove(NamedTuple):
    """A legal move and the verdict of the position that it leads to, counted from there."""

    move: str
    after: Answer


class Man(NamedTuple):
    """A man by the letter that FEN gives him, and his square: 8 * rank + file, both from 0."""

    letter: str
    square: int


def _bound(path: Optional[str]) -> ctypes.CDLL:
    calls = ctypes.CDLL(path or os.environ.get("EGTB_LIBRARY") or "libegtb.so")
    shelf, size, text, number = ctypes.POINTER(_Library), ctypes.c_size_t, ctypes.c_char_p, ctypes.c_uint8
    place = ctypes.POINTER(_Position)
    for name, result, *words in (
        ("egtb_open", _Fault, shelf),
        ("egtb_close", None, shelf),
        ("egtb_add", _Fault, shelf, number, text, size),
        ("egtb_loaded", number, shelf, number),
        ("egtb_verdict", _Fault, shelf, text, size, ctypes.POINTER(_Answer)),
        ("egtb_verdict_of", _Fault, shelf, place, ctypes.POINTER(_Answer)),
        ("egtb_move", _Fault, shelf, text, size, ctypes.POINTER(_Best)),
        ("egtb_move_of", _Fault, shelf, place, ctypes.POINTER(_Best)),
        ("egtb_root", _Fault, shelf, text, size, ctypes.POINTER(_RootMoves)),
        ("egtb_root_of", _Fault, shelf, place, ctypes.POINTER(_RootMoves)),
        ("egtb_legal_moves", _Fault, text, size, ctypes.POINTER(_Moves)),
        ("egtb_fault_name", None, ctypes.POINTER(_Fault), text),
        ("egtb_version", None, text),
    ):
        call = getattr(calls, name)
        call.restype, call.argtypes = result, words
    return calls


def _answer(told: _Answer) -> Answer:
    return Answer(CLASSES[told.class_number], OUTCOMES[told.outcome], told.plies, told.zeroing)


class Library:
    """The tables of a folder: those of `classes` (all 36 where it is None) whose file is there, in order. `progress` is called with each
    class's name and whether it was loaded. A context manager: it closes at the end.

    Raises EgtbError where a file or a table is refused, with the class's name, and OSError where a file cannot be read."""

    def __init__(
        self,
        folder: str,
        classes: Optional[Sequence[str]] = None,
        library: Optional[str] = None,
        progress: Optional[Callable[[str, bool], None]] = None,
    ) -> None:
        self._calls = _bound(library)
        self._shelf = _Library()
        self._judge(self._calls.egtb_open(self._shelf))
        try:
            for number, name in enumerate(CLASSES):
                if classes is None or name in classes:
                    there = self._add(number, os.path.join(folder, f"{name}.egt"))
                    if progress:
                        progress(name, there)
        except BaseException:
            self.close()
            raise

    def _add(self, number: int, path: str) -> bool:
        if not os.path.exists(path):
            return False
        with open(path, "rb") as file:
            self.add(CLASSES[number], file.read())
        return True

    def add(self, class_name: str, data: bytes) -> None:
        """Takes the bytes of a file as the table of the class, after those that it rests on; no other call runs meanwhile. Raises EgtbError
        where they are refused: the library is then as it was."""
        self._judge(self._calls.egtb_add(self._shelf, CLASSES.index(class_name), data, len(data)), class_name)

    def _judge(self, fault: _Fault, class_name: str = "") -> None:
        if fault.family:
            name = ctypes.create_string_buffer(16)
            self._calls.egtb_fault_name(fault, name)
            named = CLASSES[fault.class_number] if (fault.family, fault.number) in ((3, 11), (3, 17), (4, 11)) else class_name
            raise EgtbError(FAMILIES[fault.family], fault.number, name.value.decode(), named)

    def _ask(self, name: str, result: ctypes.Structure, fen: str) -> ctypes.Structure:
        text = fen.encode()
        self._judge(getattr(self._calls, name)(self._shelf, text, len(text), result))
        return result

    def _ask_of(self, name: str, result: ctypes.Structure, men: Sequence[Man], side: str, target: Optional[int]) -> ctypes.Structure:
        # What names nothing goes on as a number that names nothing, so that the library refuses it.
        place = _Position(count=min(len(men), 255), side={"w": 0, "b": 1}.get(side, 2), target=NO_SQUARE)
        if target is not None:
            place.target = target if 0 <= target < NO_SQUARE else NO_SQUARE + 1
        for at, man in zip(range(4), men):
            square = man.square if 0 <= man.square < NO_SQUARE else NO_SQUARE
            place.men[at] = _Man(square, man.letter.islower(), KINDS.get(man.letter.upper(), 0))
        self._judge(getattr(self._calls, name)(self._shelf, place, result))
        return result

    def version(self) -> str:
        """The version of the library, as "1.0"."""
        text = ctypes.create_string_buffer(8)
        self._calls.egtb_version(text)
        return text.value.decode()

    def loaded(self) -> Dict[str, bool]:
        """The classes that are loaded, each with whether its table tells of dead positions."""
        levels = ((name, self._calls.egtb_loaded(self._shelf, number)) for number, name in enumerate(CLASSES))
        return {name: level == 2 for name, level in levels if level}

    def verdict(self, fen: str) -> Answer:
        """The verdict of the position that the FEN spells."""
        return _answer(self._ask("egtb_verdict", _Answer(), fen))

    def verdict_of(self, men: Sequence[Man], side: str, target: Optional[int] = None) -> Answer:
        """The same of the position with these men, "w" or "b" to move, and the square that a pawn has just passed."""
        return _answer(self._ask_of("egtb_verdict_of", _Answer(), men, side, target))

    def move(self, fen: str) -> str:
        """The first move of best play, or that holds a draw; "" at checkmate and at stalemate."""
        return self._ask("egtb_move", _Best(), fen).text.decode()

    def move_of(self, men: Sequence[Man], side: str, target: Optional[int] = None) -> str:
        """The same by men."""
        return self._ask_of("egtb_move_of", _Best(), men, side, target).text.decode()

    def root(self, fen: str) -> List[RootMove]:
        """The legal moves with what they lead to, best first for the side that moves."""
        return self._ranked(self._ask("egtb_root", _RootMoves(), fen))

    def root_of(self, men: Sequence[Man], side: str, target: Optional[int] = None) -> List[RootMove]:
        """The same by men."""
        return self._ranked(self._ask_of("egtb_root_of", _RootMoves(), men, side, target))

    @staticmethod
    def _ranked(told: _RootMoves) -> List[RootMove]:
        return [RootMove(entry.move.text.decode(), _answer(entry.after)) for entry in told.moves[: told.count]]

    def legal_moves(self, fen: str) -> List[str]:
        """The legal moves, in order of the square left, the square arrived at and the promotion."""
        told, text = _Moves(), fen.encode()
        self._judge(self._calls.egtb_legal_moves(text, len(text), told))
        return [entry.text.decode() for entry in told.moves[: told.count]]

    def close(self) -> None:
        """Lets the tables go. A closed library answers `error call 1 Closed`."""
        self._calls.egtb_close(self._shelf)

    def __enter__(self) -> "Library":
        return self

    def __exit__(self, *why: object) -> None:
        self.close()
