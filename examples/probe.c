/* Answers FENs from the tables of a folder: probe DIR CLASS [FEN..], or the lines of the standard input where no FEN is given. Each answer
 * is what `egtb probe` prints up to the first move. probe moves FEN prints the legal moves as `egtb moves` does, and probe root DIR CLASS FEN
 * each of them, best first, with what it leads to. scripts/c-example compiles it. */
#include <stdio.h>
#include <stdlib.h>
#include <string.h>

#include "egtb.h"

/* The bytes of a file, and how many they are in *length. */
static unsigned char *contents(const char *path, size_t *length) {
  FILE *file = fopen(path, "rb");
  unsigned char *bytes = NULL;
  long size = -1;
  if (file && fseek(file, 0, SEEK_END) == 0) size = ftell(file);
  if (size >= 0 && fseek(file, 0, SEEK_SET) == 0) bytes = malloc(size + 1);
  *length = bytes ? fread(bytes, 1, size, file) : 0;
  if (file) fclose(file);
  return bytes;
}

/* Prints why there is no answer. */
static void refuse(FILE *to, struct egtb_fault fault) {
  static const char *const families[] = {"", "fen", "file", "check", "probe", "call"};
  char name[16], class_name[5];
  egtb_fault_name(&fault, name);
  fprintf(to, "error %s %d %s", families[fault.family], fault.number, name);
  if (fault.family == EGTB_PROBE && fault.number == EGTB_MISSING && egtb_class_name(fault.class_number, class_name))
    fprintf(to, " %s", class_name);
  putc('\n', to);
}

/* Loads the tables of the classes that the class leads to, and then its own; false after the first fault. */
static bool load(struct egtb_library *library, const char *folder, uint8_t class_number) {
  uint8_t children[9];
  uint8_t count = egtb_children(class_number, children);
  char name[5], path[4096];
  unsigned char *bytes;
  size_t length;
  struct egtb_fault fault;
  if (egtb_loaded(library, class_number)) return true;
  for (uint8_t i = 0; i < count; i++)
    if (!load(library, folder, children[i])) return false;
  if (!egtb_class_name(class_number, name)) return false;
  snprintf(path, sizeof path, "%s/%s.egt", folder, name);
  if (!(bytes = contents(path, &length))) {
    fprintf(stderr, "%s: no file\n", path);
    return false;
  }
  fault = egtb_add(library, class_number, bytes, length);
  free(bytes);
  if (fault.family != EGTB_OK) refuse(stderr, fault);
  return fault.family == EGTB_OK;
}

/* Answers a FEN. */
static void answer(const struct egtb_library *library, const char *fen) {
  struct egtb_answer told;
  struct egtb_best best;
  char name[5];
  const char *move;
  struct egtb_fault fault = egtb_verdict(library, fen, strlen(fen), &told);
  if (fault.family == EGTB_OK) fault = egtb_move(library, fen, strlen(fen), &best);
  if (fault.family != EGTB_OK) {
    refuse(stdout, fault);
    return;
  }
  egtb_class_name(told.class_number, name);
  move = best.text[0] ? best.text : "-";
  if (told.outcome == EGTB_DRAW || told.outcome == EGTB_DEAD)
    printf("%s %s hold %s\n", name, told.outcome == EGTB_DRAW ? "draw" : "dead", move);
  else
    printf("%s %s mates in %d plies zeroing %d line %s\n", name, told.outcome == EGTB_WHITE_MATES ? "white" : "black", told.plies,
           told.zeroing, move);
}

/* Prints the legal moves, one a line. */
static int list(const char *fen) {
  struct egtb_moves listed;
  struct egtb_fault fault = egtb_legal_moves(fen, strlen(fen), &listed);
  if (fault.family != EGTB_OK) {
    refuse(stdout, fault);
    return 1;
  }
  for (int i = 0; i < listed.count; i++) puts(listed.moves[i].text);
  return 0;
}

/* Prints each move, best first, with the verdict of the position that it leads to. */
static int rank(const struct egtb_library *library, const char *fen) {
  static const char *const outcomes[] = {"draw", "dead", "white mates", "black mates"};
  struct egtb_root_moves ranked;
  struct egtb_fault fault = egtb_root(library, fen, strlen(fen), &ranked);
  if (fault.family != EGTB_OK) {
    refuse(stdout, fault);
    return 1;
  }
  for (int i = 0; i < ranked.count; i++) {
    const struct egtb_answer *after = &ranked.moves[i].after;
    printf("%s %s", ranked.moves[i].move.text, outcomes[after->outcome]);
    if (after->outcome >= EGTB_WHITE_MATES) printf(" in %d plies zeroing %d", after->plies, after->zeroing);
    putchar('\n');
  }
  return 0;
}

int main(int count, char **words) {
  struct egtb_library library = {0};
  char line[1200];
  int ranks = count == 5 && strcmp(words[1], "root") == 0;
  const char *folder = count > 2 ? words[1 + ranks] : NULL, *class_name = count > 2 ? words[2 + ranks] : "";
  uint8_t class_number = egtb_class(class_name, strlen(class_name));
  int status = 0;
  if (count == 3 && strcmp(words[1], "moves") == 0) return list(words[2]);
  if (class_number == 255) {
    fprintf(stderr, "usage: probe DIR CLASS [FEN..] | probe root DIR CLASS FEN | probe moves FEN\n");
    return 2;
  }
  if (egtb_open(&library).family != EGTB_OK || !load(&library, folder, class_number)) {
    egtb_close(&library);
    return 1;
  }
  if (ranks) status = rank(&library, words[4]);
  for (int i = 3; !ranks && i < count; i++) answer(&library, words[i]);
  while (count == 3 && fgets(line, sizeof line, stdin)) {
    line[strcspn(line, "\n")] = '\0';
    answer(&library, line);
  }
  egtb_close(&library);
  return status;
}
