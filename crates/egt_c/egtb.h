/* egtb: complete chess endgame tables of two to four men, probed in one's own process.
 *
 * On x86-64 Linux, a processor of level x86-64-v2 (SSE4.2), with the C library's malloc. `scripts/install PREFIX` puts the header, the
 * libraries and a file for pkg-config in place; then
 *
 *     cc -std=c99 -o engine engine.c $(pkg-config --cflags --libs egtb)
 *
 * Without it, behind `scripts/prove egt_c` (from nothing that takes as long as the first call of scripts/egtb; KIT is the toolchain's
 * folder):
 *
 *     cc -std=c99 -I crates/egt_c -o engine engine.c crates/egt_c/out/libegt_c.a KIT/c/liblibc_c.a
 *
 * Each function here is proved, and each answer with it: a verdict is what the laws of chess say, whoever wrote the tables, since a library
 * takes no table that is not true. docs/PROOFS.md says what is proved and what is tested.
 *
 * A library lies where the program puts it, as a struct egtb_library whose bytes are all 0 to begin with:
 *
 *     struct egtb_library library = {0};
 *     struct egtb_fault fault = egtb_open(&library);
 *     ... egtb_add for each class, in order of their numbers ...
 *     ... egtb_verdict, egtb_root, .. from any number of threads ...
 *     egtb_close(&library);
 *
 * What holds for all calls:
 *
 * - A library is one that is all 0, or that the calls here left. The program writes nothing in it, and makes no copy of it and goes on with
 *   both.
 * - Calls that take it as const write nothing in it nor behind it, but for the count of owners that egtb_share raises. So once its tables are
 *   added one library serves any number of threads at once. Opening, adding and closing need it alone: no other call on that struct runs
 *   meanwhile, and what they did reaches other threads by the start of those, or under a lock. What is proved is one call at a time on a
 *   struct; that calls at once read alone is tested (docs/DECISIONS.md, "Asking reads"). A thread may have a struct of its own by egtb_share.
 * - A pointer is not null and points to what its type says; with a length it points to so many bytes, and is not null where that is 0.
 *   What one argument points to no other argument of the call points to.
 * - A text has a length and needs no 0 at its end.
 * - A call that answers a fault, or 0 for what is not there, leaves the libraries and what it was to write as they were.
 * - No call aborts, waits, prints or keeps a pointer that it was given. Memory is taken by malloc and given back by free, by egtb_open,
 *   egtb_share, egtb_add and egtb_close alone. Calls are not made from a signal handler, nor from the child of a fork where the process has
 *   threads.
 * - egtb_add needs 320 KB of stack; the threads of some C libraries have less (musl: 128 KB) unless the program asks for more. The other
 *   calls need 16 KB.
 */
#ifndef EGTB_H
#define EGTB_H

#include <stddef.h>
#include <stdint.h>
#ifndef __cplusplus
#include <stdbool.h>
#endif

/* The version of this header; egtb_version tells that of the library. */
#define EGTB_VERSION "1.0"

#ifdef __cplusplus
extern "C" {
#endif

/* A library of tables, or none where it is closed, as it is where all its bytes are 0. Its fields are no business of the program. */
struct egtb_library {
  void *at;
  bool is_open;
};

/* The families of faults. */
enum {
  EGTB_OK = 0,    /* no fault: all fields are 0 */
  EGTB_FEN = 1,   /* the text is no FEN of a position */
  EGTB_FILE = 2,  /* the bytes are no file of a table of the class */
  EGTB_CHECK = 3, /* the library does not take the table */
  EGTB_PROBE = 4, /* there is no answer about the position */
  EGTB_CALL = 5   /* the call does not fit */
};

/* The faults of a FEN (docs/RULES.md says when each holds), and from EGTB_MEN_COUNT on those of a struct egtb_position: the first that
 * does. */
enum {
  EGTB_FIELD_COUNT = 1,
  EGTB_PLACEMENT = 2,
  EGTB_COLOUR = 3,
  EGTB_CASTLING = 4,
  EGTB_EP_FIELD = 5,
  EGTB_COUNTER = 6,
  EGTB_MEN_COUNT = 7,
  EGTB_KING_COUNT = 8,
  EGTB_PAWN_RANK = 9,
  EGTB_EP_MISMATCH = 10,
  EGTB_WAITING_IN_CHECK = 11
};

/* The faults of a file (docs/FORMATS.md): the first that holds. */
enum {
  EGTB_SHORT = 2,    /* the bytes end early */
  EGTB_MAGIC = 3,    /* they do not begin with EGTB */
  EGTB_FILE_VERSION = 4, /* another version than 1 and 2 */
  EGTB_LAYOUT = 5,   /* another layout than 1 */
  EGTB_CLASS = 6,    /* another class than the one asked for */
  EGTB_COLUMNS = 7,  /* another number of columns than files of the version have */
  EGTB_COUNT = 8,    /* another number of entries than the class has */
  EGTB_TRAILING = 9, /* bytes follow the last entry */
  EGTB_FILE_NO_MEMORY = 10
};

/* The refusals of the checker. */
enum {
  EGTB_NO_CHILD = 11,      /* a class that a capture or a promotion leads to is not loaded: class_number, the least such */
  EGTB_REJECTED = 12,      /* an entry breaks a rule: column, rule and index */
  EGTB_ALREADY_THERE = 13, /* the class is loaded */
  EGTB_NO_REACH = 17       /* the file is of version 2, and that of a class that a capture or a promotion leads to is of version 1:
                              class_number, the least such */
};

/* The faults of the prober. */
enum {
  EGTB_PROBE_NO_MEMORY = 10,
  EGTB_MISSING = 11 /* the class of the position is not loaded: class_number */
};

/* The faults of a call. */
enum {
  EGTB_CLOSED = 1,   /* the library is closed */
  EGTB_NO_CLASS = 2, /* no class has the number */
  EGTB_SHARED = 3,   /* the library was shared, and another struct of it is open */
  EGTB_NO_MAN = 4    /* a number in a struct egtb_position names no square, side or kind of man */
};

/* Why a call gave no answer. What a fault does not name is 0. */
struct egtb_fault {
  uint8_t family;       /* EGTB_OK where there is none */
  uint8_t number;       /* in the family */
  uint8_t class_number; /* 0 to 35 (docs/CLASSES.md) */
  uint8_t column;       /* 1 mate, 2 zeroing, 3 reach */
  uint8_t rule;         /* 1 void, 2 range, 3 kind, 4 win, 5 loss, 6 draw, 7 reach, 8 dead (docs/RULES.md) */
  uint32_t index;       /* of the entry */
};

/* Opens a library without tables. One that was open before is closed.
 * Faults: EGTB_PROBE 10 where there is no memory. */
struct egtb_fault egtb_open(struct egtb_library *library);

/* Closes the library. Its memory is freed with the last struct that has it open. One that is closed stays so. */
void egtb_close(struct egtb_library *library);

/* Opens in `other` the library that is open in `library`: both have the same tables. What was open in `other` before is closed. The tables
 * are there once; no table is added while two have them.
 * Faults: EGTB_CALL 1; EGTB_PROBE 10 where there is no memory. */
struct egtb_fault egtb_share(const struct egtb_library *library, struct egtb_library *other);

/* Reads a file's bytes as the table of the class, of either version, checks every entry against the laws of chess beside the tables that
 * are there, and takes it. The bytes are not needed afterwards. Classes come in order of their numbers, or each after its children
 * (egtb_children). It takes up to a second, and six bytes of memory an entry.
 * Faults: EGTB_CALL 1, 2 and 3; EGTB_FILE 2 to 10; EGTB_CHECK 11, 12, 13 and 17. */
struct egtb_fault egtb_add(struct egtb_library *library, uint8_t class_number, const uint8_t *bytes, size_t length);

/* 0 where the class is not loaded, 1 where it is, and 2 where its table also tells which draws are dead positions. */
uint8_t egtb_loaded(const struct egtb_library *library, uint8_t class_number);

/* A position by its men: the first `count` of `men`. Squares are 8 * rank + file, both from 0: a1 is 0, h1 7, h8 63. */
enum { EGTB_WHITE = 0, EGTB_BLACK = 1 };
enum { EGTB_PAWN = 1, EGTB_KNIGHT = 2, EGTB_BISHOP = 3, EGTB_ROOK = 4, EGTB_QUEEN = 5, EGTB_KING = 6 };
enum { EGTB_NO_SQUARE = 64 };

struct egtb_man {
  uint8_t square; /* 0 to 63 */
  uint8_t side;   /* EGTB_WHITE or EGTB_BLACK */
  uint8_t kind;   /* EGTB_PAWN to EGTB_KING */
};

struct egtb_position {
  uint8_t count;          /* 2 to 4 */
  struct egtb_man men[4]; /* in whatever order */
  uint8_t side;           /* to move */
  uint8_t target;         /* the square that a pawn has just passed in an advance by two, or EGTB_NO_SQUARE */
};

/* How play ends where both sides do their best. */
enum {
  EGTB_DRAW = 0,       /* neither side can force checkmate */
  EGTB_DEAD = 1,       /* no legal moves of both sides lead to checkmate (FIDE Laws of Chess 2023, article 5.2.2), and there is a legal
                          move; it is told where egtb_loaded is 2, and else such a position is a draw */
  EGTB_WHITE_MATES = 2, /* White forces checkmate, whoever is to move */
  EGTB_BLACK_MATES = 3  /* Black does */
};

/* What is told of a position.
 *
 * No answer counts the fifty-move rule (article 9.3). It matters only where half-moves are counted already, since no mate of four men is
 * deeper than 85 plies. Let h be that count, the fifth field of the FEN, in a position that a side wins:
 * - h + plies <= 100: the side that mates wins by the moves that egtb_move tells, whatever the other side does.
 * - h + zeroing > 100: the other side can keep every capture, move of a pawn and mate that wins away until it may claim the draw.
 * - else the rule takes no win away, but the moves of egtb_move may come to the capture or the pawn's move too late. Then play, of the moves
 *   of egtb_root after which the same side mates, one that captures or moves a pawn, or one with after.zeroing < zeroing; behind the first
 *   of them the count is 0 again, and the first line holds.
 * So in "8/1k6/8/8/8/5K2/5P2/8 w - - h 1", where plies = 33 and zeroing = 3: at h = 60 the moves of egtb_move win; at h = 80 they may be late
 * (80 + 33 > 100), but the pawn can move in time (80 + 3); at h = 98 it cannot (98 + 3 > 100), and Black may claim the draw.
 * What is told of h is reasoned here, and not proved. */
struct egtb_answer {
  uint8_t class_number; /* the position's class, 0 to 35 */
  uint8_t outcome;      /* EGTB_DRAW, EGTB_DEAD, EGTB_WHITE_MATES or EGTB_BLACK_MATES */
  uint16_t plies;       /* to checkmate, 0 to 32,000; 0 at checkmate, and where nobody mates */
  uint16_t zeroing;     /* to the next capture, move of a pawn or checkmate; 0 at checkmate, and where nobody mates */
};

/* The verdict of the position that the FEN spells, and of the one with these men.
 * Faults: EGTB_CALL 1; EGTB_FEN 1 to 11; EGTB_PROBE 11; of men also EGTB_CALL 4, and of EGTB_FEN only 7 to 11. They take no memory. */
struct egtb_fault egtb_verdict(const struct egtb_library *library, const char *fen, size_t length, struct egtb_answer *answer);
struct egtb_fault egtb_verdict_of(const struct egtb_library *library, const struct egtb_position *position, struct egtb_answer *answer);

/* The text of a move with a 0 at its end, as "d1d8" or, where a pawn is promoted, "g7g8q"; "" where there is none. */
struct egtb_best {
  char text[6];
};

/* The first move of best play: the first in the order of moves that mates as soon, or is mated as late, as can be. At a draw the first move
 * that holds it. "" at checkmate and at stalemate.
 * Faults as those of egtb_verdict. They take no memory. */
struct egtb_fault egtb_move(const struct egtb_library *library, const char *fen, size_t length, struct egtb_best *best);
struct egtb_fault egtb_move_of(const struct egtb_library *library, const struct egtb_position *position, struct egtb_best *best);

/* A legal move, and the verdict of the position that it leads to: plies and zeroing are counted from there, so the best move of a side that
 * mates in 21 plies has plies = 20, and a move that mates has plies = 0. */
struct egtb_root_move {
  struct egtb_best move;
  struct egtb_answer after;
};

/* The legal moves of a position: the first `count` of `moves`. */
struct egtb_root_moves {
  uint8_t count; /* 0 to 64 */
  struct egtb_root_move moves[64];
};

/* The legal moves of a position with what they lead to, best first for the side that moves: mates by plies, then draws, then dead positions,
 * then being mated, the longest first; equal ones in the order of the square left, the square arrived at and the promotion.
 * Faults as those of egtb_verdict. They take no memory. */
struct egtb_fault egtb_root(const struct egtb_library *library, const char *fen, size_t length, struct egtb_root_moves *moves);
struct egtb_fault egtb_root_of(const struct egtb_library *library, const struct egtb_position *position, struct egtb_root_moves *moves);

/* The legal moves of a position: the first `count` of `moves`. */
struct egtb_moves {
  uint8_t count; /* 0 to 64 */
  struct egtb_best moves[64];
};

/* The legal moves of the position that the FEN spells, in order of the square left, the square arrived at and the promotion. It asks no
 * library. Faults: EGTB_FEN 1 to 11. */
struct egtb_fault egtb_legal_moves(const char *fen, size_t length, struct egtb_moves *moves);

/* The number of the class of that name, as "KQKR" (docs/CLASSES.md); 255 where no class has it. */
uint8_t egtb_class(const char *name, size_t length);

/* Writes the name of the class, a 0 at its end, and answers whether a class has the number. */
bool egtb_class_name(uint8_t class_number, char name[5]);

/* Writes the numbers of the classes other than this one that a capture or a promotion leads to, ascending, and answers how many they are:
 * up to 9, all smaller than the class's own. 0 where no class has the number. */
uint8_t egtb_children(uint8_t class_number, uint8_t children[9]);

/* Writes the name of a fault as `egtb` prints it, as "FieldCount", zeros behind it: all zeros where there is none of that family and
 * number. */
void egtb_fault_name(const struct egtb_fault *fault, char name[16]);

/* Writes the version of the library, as EGTB_VERSION, zeros behind it. */
void egtb_version(char version[8]);

#ifdef __cplusplus
}
#endif

#endif
