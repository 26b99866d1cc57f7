/* Asks one library from eight threads at once: threads DIR [ROUNDS] < FENS. It loads the tables that are in the folder, puts the library in
 * memory that nobody may write, and has each thread ask each position by its FEN and by its men. Answers of all threads have to agree, those
 * by men with those by text, and the moves of egtb_root with those of egtb_legal_moves. It prints how many positions were asked, and with
 * ROUNDS how many answers a second a thread gives. Built by
 *
 *     cc -std=c99 -O2 -pthread -o threads threads.c $(pkg-config --cflags --libs egtb)
 */
#define _DEFAULT_SOURCE
#include <pthread.h>
#include <stdio.h>
#include <stdlib.h>
#include <string.h>
#include <sys/mman.h>
#include <time.h>

#include "egtb.h"

enum { THREADS = 8, MOST = 4096 };

static const struct egtb_library *library; /* one for all threads */
static char fens[MOST][128];
static struct egtb_position men[MOST];
static struct egtb_answer told[THREADS][MOST];
static int count, rounds = 1, wrong[THREADS];
static double seconds[THREADS][4];

/* Seconds of the processor that the thread has had. */
static double now(void) {
  struct timespec t;
  clock_gettime(CLOCK_THREAD_CPUTIME_ID, &t);
  return (double)t.tv_sec + 1e-9 * (double)t.tv_nsec;
}

/* The position of a FEN that is known to spell one. */
static struct egtb_position position_of(const char *fen) {
  static const char letters[] = ".PNBRQK";
  struct egtb_position p;
  int square = 56;
  memset(&p, 0, sizeof p);
  p.target = EGTB_NO_SQUARE;
  for (; *fen != ' '; fen++) {
    const char *at = strchr(letters, *fen >= 'a' ? *fen - 'a' + 'A' : *fen);
    if (*fen == '/') {
      square -= 16;
    } else if (*fen >= '1' && *fen <= '8') {
      square += *fen - '0';
    } else {
      p.men[p.count].square = (uint8_t)square++;
      p.men[p.count].side = *fen >= 'a' ? EGTB_BLACK : EGTB_WHITE;
      p.men[p.count++].kind = (uint8_t)(at - letters);
    }
  }
  p.side = fen[1] == 'w' ? EGTB_WHITE : EGTB_BLACK;
  if (fen[5] != '-') p.target = (uint8_t)(8 * (fen[6] - '1') + fen[5] - 'a');
  return p;
}

static int is_listed(const struct egtb_moves *listed, const char *text) {
  for (int i = 0; i < listed->count; i++)
    if (strcmp(listed->moves[i].text, text) == 0) return 1;
  return 0;
}

/* Whether the two answers are the same, and the moves those that are legal. */
static int agree(int i) {
  struct egtb_answer by_text, by_men;
  struct egtb_best one, other;
  struct egtb_root_moves ranked, again;
  struct egtb_moves listed;
  size_t length = strlen(fens[i]);
  memset(&by_text, 0, sizeof by_text);
  memset(&by_men, 1, sizeof by_men);
  if (egtb_verdict(library, fens[i], length, &by_text).family || egtb_verdict_of(library, &men[i], &by_men).family) return 0;
  if (memcmp(&by_text, &by_men, sizeof by_text) != 0) return 0;
  if (egtb_move(library, fens[i], length, &one).family || egtb_move_of(library, &men[i], &other).family) return 0;
  if (strcmp(one.text, other.text) != 0) return 0;
  if (egtb_root(library, fens[i], length, &ranked).family || egtb_root_of(library, &men[i], &again).family) return 0;
  if (egtb_legal_moves(fens[i], length, &listed).family || listed.count != ranked.count || again.count != ranked.count) return 0;
  for (int k = 0; k < ranked.count; k++)
    if (!is_listed(&listed, ranked.moves[k].move.text) || strcmp(ranked.moves[k].move.text, again.moves[k].move.text)) return 0;
  /* The best move of a side that mates or is mated leads one ply nearer to the mate. */
  if (by_text.plies && ranked.moves[0].after.plies != by_text.plies - 1) return 0;
  return !ranked.count || ranked.moves[0].after.outcome == by_text.outcome || by_text.outcome <= EGTB_DEAD;
}

static void *ask(void *which) {
  int me = (int)(size_t)which;
  struct egtb_best best;
  struct egtb_root_moves ranked;
  double start;
  for (int i = 0; i < count; i++) wrong[me] += !agree(i);
  start = now();
  for (int round = 0; round < rounds; round++)
    for (int i = 0; i < count; i++) egtb_verdict(library, fens[i], strlen(fens[i]), &told[me][i]);
  seconds[me][0] = now() - start, start = now();
  for (int round = 0; round < rounds; round++)
    for (int i = 0; i < count; i++) egtb_verdict_of(library, &men[i], &told[me][i]);
  seconds[me][1] = now() - start, start = now();
  for (int round = 0; round < rounds; round++)
    for (int i = 0; i < count; i++) egtb_move_of(library, &men[i], &best);
  seconds[me][2] = now() - start, start = now();
  for (int round = 0; round < rounds; round++)
    for (int i = 0; i < count; i++) egtb_root_of(library, &men[i], &ranked);
  seconds[me][3] = now() - start;
  return NULL;
}

static void load(struct egtb_library *into, const char *folder) {
  for (uint8_t class_number = 0; class_number < 36; class_number++) {
    char name[5], path[4096];
    FILE *file;
    if (!egtb_class_name(class_number, name)) exit(1);
    snprintf(path, sizeof path, "%s/%s.egt", folder, name);
    if ((file = fopen(path, "rb"))) {
      unsigned char *bytes = NULL;
      size_t length = fseek(file, 0, SEEK_END) ? 0 : (size_t)ftell(file);
      rewind(file);
      bytes = malloc(length + 1);
      if (!bytes || fread(bytes, 1, length, file) != length || egtb_add(into, class_number, bytes, length).family) {
        fprintf(stderr, "%s: refused\n", path);
        exit(1);
      }
      free(bytes);
      fclose(file);
    }
  }
}

int main(int words, char **word) {
  static const char *const names[4] = {"verdicts by text", "verdicts by men", "moves by men", "roots by men"};
  struct egtb_library *mine = mmap(NULL, 4096, PROT_READ | PROT_WRITE, MAP_PRIVATE | MAP_ANONYMOUS, -1, 0);
  pthread_t threads[THREADS];
  char line[1200];
  int bad = 0;
  if (words < 2 || mine == MAP_FAILED || egtb_open(mine).family) return 2;
  if (words > 2) rounds = atoi(word[2]);
  load(mine, word[1]);
  while (count < MOST && fgets(line, sizeof line, stdin)) {
    struct egtb_answer known;
    line[strcspn(line, "\n")] = '\0';
    if (strlen(line) < sizeof fens[0] && egtb_verdict(mine, line, strlen(line), &known).family == EGTB_OK) {
      strcpy(fens[count], line);
      men[count++] = position_of(line);
    }
  }
  if (mprotect(mine, 4096, PROT_READ)) return 2;
  library = mine;
  for (size_t i = 0; i < THREADS; i++)
    if (pthread_create(&threads[i], NULL, ask, (void *)i)) return 2;
  for (size_t i = 0; i < THREADS; i++) pthread_join(threads[i], NULL);
  for (int i = 0; i < THREADS; i++) bad += wrong[i] + (memcmp(told[i], told[0], (size_t)count * sizeof told[0][0]) != 0);
  printf("%d positions, %d threads, %d wrong\n", count, THREADS, bad);
  for (int kind = 0; kind < 4 && words > 2; kind++) {
    double all = 0;
    for (int i = 0; i < THREADS; i++) all += seconds[i][kind];
    fprintf(stderr, "%s: %.0f a second a thread\n", names[kind], THREADS * (double)count * rounds / all);
  }
  if (mprotect(mine, 4096, PROT_READ | PROT_WRITE)) return 2;
  egtb_close(mine);
  return bad ? 1 : 0;
}
