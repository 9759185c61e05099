/* Runs random images by the built program and by the emulator of this folder, and compares status and transcript.

   random PROGRAM FIRST COUNT SORT SALT: the images of the numbers from FIRST on. An image of sort 1 begins with a base, main's code address
   and an address to return to, and 64 random halfwords follow; of sort 2 these are mostly instructions that go on; an image of sort 0 is 4
   to 512 random bytes. */
#include "emulator.h"
#include <fcntl.h>
#include <poll.h>
#include <signal.h>
#include <stdio.h>
#include <stdlib.h>
#include <string.h>
#include <sys/wait.h>
#include <time.h>
#include <unistd.h>

#define INSTRUCTIONS 1000
#define SECONDS 20

static uint64_t state;

static uint32_t next_random(void) {
  state += 0x9e3779b97f4a7c15u;
  uint64_t x = state;
  x = (x ^ x >> 30) * 0xbf58476d1ce4e5b9u;
  x = (x ^ x >> 27) * 0x94d049bb133111ebu;
  return x >> 32 ^ (uint32_t)x;
}

/* A halfword that is likely to be an instruction that doesn't stop the run. */
static uint16_t likely(void) {
  static const uint8_t services[] = { 12, 12, 12, 20, 21, 20, 0, 1 };
  uint32_t x = next_random();
  switch (next_random() % 20) {
    case 0: return 0xdf00 | services[x % 8];
    case 1: return 0xb080 | (x & 15);                     /* SUB SP */
    case 2: return 0xb000 | (x & 7);                      /* ADD SP */
    case 3: return 0xb400 | (x & 0x1ff);                  /* PUSH */
    case 4: return 0xbc00 | (x & 0xff);                   /* POP */
    case 5: case 6: return 0x9000 | (x & 0xf0f);          /* STR, LDR at SP */
    case 7: return 0xd000 | (x % 14) << 8 | (x >> 8 & 15);  /* B with a condition, forwards */
    case 8: return 0x4400 | (x & 0x2ff);                  /* ADD, MOV of high registers */
    case 9: return 0x4800 | (x & 0x70f);                  /* LDR from PC */
    case 10: return 0xb200 | (x & 0xff);                  /* extensions */
    case 11: return x;
    default: return x % 0x4400;                           /* shifts, sums, logic */
  }
}

static size_t make(int sort, uint8_t *image) {
  if (!sort) {
    size_t length = 4 + next_random() % 509;
    for (size_t k = 0; k < length; k++) image[k] = next_random();
    return length;
  }
  static const uint8_t head[] = { 0x80, 0x3f, 0, 0x20, 0x0d, 0, 0, 0, 0x0d, 0, 0, 0 };
  memcpy(image, head, sizeof head);
  for (size_t k = 0; k < 64; k++) {
    uint16_t half = sort == 1 ? next_random() : likely();
    image[sizeof head + 2 * k] = half;
    image[sizeof head + 2 * k + 1] = half >> 8;
  }
  return sizeof head + 128;
}

static void write_hex(const char *path, const uint8_t *image, size_t length) {
  FILE *file = fopen(path, "w");
  if (!file) exit(2);
  for (size_t from = 0; from < length; from += 16) {
    size_t count = length - from < 16 ? length - from : 16;
    uint8_t sum = count + (from >> 8) + from;
    fprintf(file, ":%02zX%04zX00", count, from);
    for (size_t k = 0; k < count; k++) {
      fprintf(file, "%02X", image[from + k]);
      sum += image[from + k];
    }
    fprintf(file, "%02X\n", (uint8_t)-sum);
  }
  fputs(":00000001FF\n", file);
  if (fclose(file)) exit(2);
}

/* The status of the program's run, and what it wrote; -1 where it didn't end in time, -2 where it ended by a signal. */
static int call(const char *program, const char *path, char *text, size_t room, size_t *length) {
  int ends[2], status;
  if (pipe(ends)) exit(2);
  pid_t child = fork();
  if (child < 0) exit(2);
  if (child == 0) {
    char budget[16];
    snprintf(budget, sizeof budget, "%d", INSTRUCTIONS);
    dup2(ends[1], 1);
    dup2(open("/dev/null", O_WRONLY), 2);
    close(ends[0]);
    close(ends[1]);
    execl(program, program, "run-hex", path, "--budget", budget, (char *)0);
    _exit(127);
  }
  close(ends[1]);
  *length = 0;
  struct pollfd readable = { ends[0], POLLIN, 0 };
  time_t end = time(0) + SECONDS;
  int late = 0;
  for (;;) {
    time_t left = end - time(0);
    if (left <= 0 || poll(&readable, 1, left * 1000) == 0) {
      late = 1;
      kill(child, SIGKILL);
      break;
    }
    ssize_t got = read(ends[0], text + *length, room - *length);
    if (got <= 0) break;
    *length += got;
  }
  close(ends[0]);
  waitpid(child, &status, 0);
  return late ? -1 : WIFEXITED(status) ? WEXITSTATUS(status) : -2;
}

int main(int argc, char **argv) {
  if (argc != 6) return 2;
  const char *program = argv[1];
  uint64_t first = strtoull(argv[2], 0, 10), count = strtoull(argv[3], 0, 10), salt = strtoull(argv[5], 0, 10);
  int sort = atoi(argv[4]);
  char path[] = "/tmp/image.XXXXXX";
  close(mkstemp(path));
  static run_result wanted;
  static char text[1 << 17];
  static uint8_t image[1024];
  uint64_t by_status[16] = { 0 }, apart = 0, wrong = 0;
  for (uint64_t number = first; number < first + count; number++) {
    state = number * 4 + sort + (salt << 40);
    size_t length = make(sort, image), got;
    write_hex(path, image, length);
    emulate(image, length, INSTRUCTIONS, &wanted);
    int status = call(program, path, text, sizeof text, &got);
    int known = status == QUIET || status == PANIC || status == BUDGET || status == FAULT;
    int same = status == wanted.status && got == wanted.length && !memcmp(text, wanted.text, got);
    if (known) by_status[status]++;
    if (!known || (!same && !wanted.free_words)) {
      wrong++;
      printf("image %llu: status %d and %.*s", (unsigned long long)number, status, (int)(got < 200 ? got : 200), text);
      printf("  wanted %d and %.*s", wanted.status, (int)(wanted.length < 200 ? wanted.length : 200), wanted.text);
      char kept[64];
      snprintf(kept, sizeof kept, "random-%d-%llu.hex", sort, (unsigned long long)number);
      write_hex(kept, image, length);
    } else if (!same) {
      apart++;
    }
  }
  unlink(path);
  printf("%llu %llu %llu %llu %llu %llu\n", (unsigned long long)by_status[QUIET], (unsigned long long)by_status[PANIC],
         (unsigned long long)by_status[BUDGET], (unsigned long long)by_status[FAULT], (unsigned long long)apart, (unsigned long long)wrong);
  return wrong != 0;
}
