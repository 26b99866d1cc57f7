/* Loads the tables of a folder, those that are there, and tells which: load DIR [FEN]. With a FEN it also tells what the position is worth.
 * Each file is mapped into memory, read, checked and let go. Built by
 *
 *     cc -std=c99 -D_POSIX_C_SOURCE=200809L -o load load.c $(pkg-config --cflags --libs egtb)
 */
#include <fcntl.h>
#include <stdio.h>
#include <string.h>
#include <sys/mman.h>
#include <sys/stat.h>
#include <unistd.h>

#include "egtb.h"

/* Adds the table of the class from its file in the folder: 1 where it is there and taken, 0 where there is no such file, -1 after a fault. */
static int load(struct egtb_library *library, const char *folder, uint8_t class_number) {
  char name[5], path[4096], why[16];
  struct stat is;
  struct egtb_fault fault;
  void *bytes = MAP_FAILED;
  int file;
  if (!egtb_class_name(class_number, name)) return 0;
  snprintf(path, sizeof path, "%s/%s.egt", folder, name);
  if ((file = open(path, O_RDONLY)) < 0) return 0;
  if (fstat(file, &is) == 0 && is.st_size > 0) bytes = mmap(NULL, (size_t)is.st_size, PROT_READ, MAP_PRIVATE, file, 0);
  close(file);
  if (bytes == MAP_FAILED) {
    fprintf(stderr, "%s: cannot be read\n", path);
    return -1;
  }
  fault = egtb_add(library, class_number, bytes, (size_t)is.st_size);
  munmap(bytes, (size_t)is.st_size);
  if (fault.family == EGTB_OK) return 1;
  egtb_fault_name(&fault, why);
  fprintf(stderr, "%s: %s\n", path, why);
  return -1;
}

int main(int count, char **words) {
  struct egtb_library library = {0};
  struct egtb_answer told;
  struct egtb_fault fault;
  char name[5], why[16];
  int faults = 0;
  if (count < 2 || count > 3 || egtb_open(&library).family != EGTB_OK) {
    fprintf(stderr, "usage: load DIR [FEN]\n");
    return 2;
  }
  /* In order of their numbers: a capture or a promotion leads to a class with a smaller one. */
  for (uint8_t class_number = 0; class_number < 36; class_number++) {
    int loaded = load(&library, words[1], class_number);
    if (loaded > 0 && egtb_class_name(class_number, name)) puts(name);
    faults += loaded < 0;
  }
  if (count == 3) {
    fault = egtb_verdict(&library, words[2], strlen(words[2]), &told);
    egtb_fault_name(&fault, why);
    if (fault.family == EGTB_OK)
      printf("outcome %d plies %d zeroing %d\n", told.outcome, told.plies, told.zeroing);
    else
      printf("%s\n", why);
    faults += fault.family != EGTB_OK;
  }
  egtb_close(&library);
  return faults ? 1 : 0;
}
