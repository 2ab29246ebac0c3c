/* The desk's search, measured: search FOLDER HEIGHT [TIMES] searches the packet in FOLDER and prints yes or no, the nanoseconds of one search, and those of one with height 0, which reads the
 * files and fills and clears the room just as well, but searches nothing. With TIMES it searches so often and measures nothing, so that instructions and calls can be counted. */
#include "desk.h"
#include <stdio.h>
#include <stdlib.h>
#include <time.h>

static uint8_t file[3][DESK_BYTES + 1], strip[DESK_BYTES];
static uint32_t room[DESK_ROOM];
static size_t count[3];

static size_t load(const char *folder, const char *name, uint8_t *to) {
  char path[4096];
  snprintf(path, sizeof path, "%s/%s", folder, name);
  FILE *f = fopen(path, "rb");
  if (!f) {
    perror(path);
    exit(2);
  }
  size_t n = fread(to, 1, DESK_BYTES + 1, f);
  fclose(f);
  return n;
}

static uint32_t search(size_t height) {
  uint64_t told[3];
  return desk_propose(file[0], count[0], file[1], count[1], file[2], count[2], height, strip, sizeof strip, room, DESK_ROOM, told, told + 1, told + 2);
}

static double now(void) {
  struct timespec t;
  clock_gettime(CLOCK_MONOTONIC, &t);
  return t.tv_sec * 1e9 + t.tv_nsec;
}

/* One search of so many, in nanoseconds, or the least so far if that is less. */
static double least(double so_far, size_t height, long times) {
  double from = now();
  for (long i = 0; i < times; i++) search(height);
  double each = (now() - from) / times;
  return each < so_far ? each : so_far;
}

/* How many searches take some 2 ms. */
static long batch(double each) { return 1 + (long)(2e6 / each); }

int main(int words, char **word) {
  if (words != 3 && words != 4) {
    fputs("search FOLDER HEIGHT [TIMES]\n", stderr);
    return 2;
  }
  count[0] = load(word[1], "rules.sx", file[0]);
  count[1] = load(word[1], "goal.sx", file[1]);
  count[2] = load(word[1], "terms.sx", file[2]);
  size_t height = strtoul(word[2], 0, 10);
  if (words == 4) {
    for (long i = strtol(word[3], 0, 10); i > 0; i--) search(height);
    return 0;
  }
  double from = now();
  uint32_t refused = search(height);
  double whole = now() - from, reading = least(1e18, 0, 1);
  /* The least of many short batches, by turns, for half a second: what else the machine does falls outside some of them. A search that takes longer than a quarter is measured once. */
  long times = batch(whole), empty = batch(reading);
  for (from = now(); now() - from < 5e8;) {
    if (whole < 25e7) whole = least(whole, height, times);
    reading = least(reading, 0, empty);
  }
  if (refused && refused != 8) {
    printf("refused %u\n", refused);
    return 1;
  }
  printf("%s %.0f %.0f\n", refused ? "no" : "yes", whole, reading);
  return 0;
}
