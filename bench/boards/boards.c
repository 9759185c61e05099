/* Runs random images on random scripts by the built program and by the emulation of this folder, and compares status, transcript and the raw
   bytes at the serial port.

   boards PROGRAM FIRST COUNT SALT: the images of the numbers from FIRST on, each with a budget of 20,000 instructions, and again cut at a
   number of instructions by chance, or with just what it took. Prints lines of a name, a tab and a number, and a line that begins with `board` for each difference. */
#define _GNU_SOURCE
#include "make.h"
#include <fcntl.h>
#include <stdio.h>
#include <stdlib.h>
#include <string.h>
#include <sys/mman.h>
#include <sys/resource.h>
#include <sys/wait.h>
#include <unistd.h>

#define INSTRUCTIONS 20000
#define SECONDS 20

#define WORDS_OF(name, words) words,
static const char *names[] = { COUNTS(WORDS_OF) };
static uint64_t sums[KINDS], asked[24], instructions, runs, same, free_same, free_apart, wrong, exact;
static char folder[] = "/tmp/boards.XXXXXX", hex[64], json[64];
static int out_file, error_file;

static void put_record(FILE *to, int type, uint32_t offset, const uint8_t *data, uint32_t count) {
  uint8_t sum = (uint8_t)(count + (offset >> 8) + offset + (uint32_t)type);
  fprintf(to, ":%02X%04X%02X", count, offset, type);
  for (uint32_t k = 0; k < count; k++) {
    fprintf(to, "%02X", data[k]);
    sum += data[k];
  }
  fprintf(to, "%02X\n", (uint8_t)-sum);
}

static void put_part(FILE *to, const image *it, uint32_t from, uint32_t upto) {
  uint32_t high = 0;
  while (from < upto) {
    uint32_t count = upto - from < 16 ? upto - from : 16;
    if (from >> 16 != high) {
      high = from >> 16;
      put_record(to, 4, 0, (uint8_t[]){ (uint8_t)(high >> 8), (uint8_t)high }, 2);
    }
    if ((from & 0xffff) + count > 0x10000) count = 0x10000 - (from & 0xffff);
    put_record(to, 0, from & 0xffff, it->bytes + from, count);
    from += count;
  }
}

static void write_hex(const char *path, const image *it) {
  FILE *to = fopen(path, "w");
  if (!to) exit(2);
  put_part(to, it, 0, it->low);
  put_part(to, it, it->far, it->length);
  fputs(":00000001FF\n", to);
  if (fclose(to)) exit(2);
}

static void write_json(const char *path, const script *it) {
  FILE *to = fopen(path, "w");
  if (!to) exit(2);
  fprintf(to, "{\"end\": %u, \"events\": [", it->end);
  for (size_t k = 0; k < it->count; k++) {
    const entry *e = &it->entries[k];
    fprintf(to, "%s\n{\"at\": %u, ", k ? "," : "", e->at);
    if (e->what == RAISE) fprintf(to, "\"do\": \"raise\", \"source\": %u, \"value\": %u}", e->first, e->second);
    else if (e->what == UNPLUG) fprintf(to, "\"do\": \"unplug\", \"port\": %u}", e->first);
    else fprintf(to, "\"do\": \"%s\", \"button\": \"%c\"}", e->what == DOWN ? "down" : "up", e->first == 1 ? 'A' : 'B');
  }
  fputs("]}\n", to);
  if (fclose(to)) exit(2);
}

static void read_back(int file, text *to) {
  off_t length = lseek(file, 0, SEEK_END);
  if (length < 0) exit(2);
  if ((size_t)length + 1 > to->room) {
    to->room = 2 * (size_t)length + 1;
    to->bytes = realloc(to->bytes, to->room);
    if (!to->bytes) exit(2);
  }
  if (pread(file, to->bytes, (size_t)length, 0) != length) exit(2);
  to->length = (size_t)length;
  if (ftruncate(file, 0) || lseek(file, 0, SEEK_SET)) exit(2);
}

/* The status of the program's run, and what it wrote; -2 where it ended by a signal. */
static int call(const char *program, uint32_t budget, text *said, text *raw) {
  char number[16];
  int status;
  snprintf(number, sizeof number, "%u", budget);
  pid_t child = fork();
  if (child < 0) exit(2);
  if (child == 0) {
    struct rlimit limit = { SECONDS, SECONDS };
    setrlimit(RLIMIT_CPU, &limit);
    dup2(out_file, 1);
    dup2(error_file, 2);
    execl(program, program, "run-hex", hex, json, "--budget", number, (char *)0);
    _exit(127);
  }
  waitpid(child, &status, 0);
  read_back(out_file, said);
  read_back(error_file, raw);
  return WIFEXITED(status) ? WEXITSTATUS(status) : -2;
}

static int equal(const text *x, const text *y) { return x->length == y->length && !memcmp(x->bytes, y->bytes, x->length); }

static void keep(uint64_t number, const image *it, const script *events) {
  char path[64];
  snprintf(path, sizeof path, "board-%llu.hex", (unsigned long long)number);
  write_hex(path, it);
  snprintf(path, sizeof path, "board-%llu.json", (unsigned long long)number);
  write_json(path, events);
}

static void last_line(const char *whose, int status, const text *it) {
  size_t from = it->length;
  while (from && it->length - from < 160) from--;
  printf("  %s %d, %zu bytes, .. %.*s\n", whose, status, it->length, (int)(it->length - from), it->bytes + from);
}

/* One run by both. */
static void compare(const char *program, uint64_t number, const image *it, const script *events, uint32_t budget, run_result *wanted) {
  static text said, raw;
  emulate(it->bytes, it->length, events, budget, wanted);
  int status = call(program, budget, &said, &raw);
  runs++;
  int is_same = status == wanted->status && equal(&said, &wanted->said) && equal(&raw, &wanted->raw);
  int begins = said.length >= wanted->free_from && !memcmp(said.bytes, wanted->said.bytes, wanted->free_from);
  int known = status == DONE || status == PANIC || status == BUDGET || status == FAULT;
  if (wanted->free_words && known && begins) {
    *(is_same ? &free_same : &free_apart) += 1;
    return;
  }
  if (is_same && known) {
    same++;
    instructions += wanted->instructions;
    for (int k = 0; k < KINDS; k++) sums[k] += wanted->counts[k];
    for (int k = 0; k < 24; k++) asked[k] += wanted->services[k];
    return;
  }
  wrong++;
  printf("board %llu with --budget %u%s\n", (unsigned long long)number, budget, equal(&raw, &wanted->raw) ? "" : ", raw bytes differ");
  last_line("said", status, &said);
  last_line("wanted", wanted->status, &wanted->said);
  keep(number, it, events);
}

int main(int argc, char **argv) {
  static image it;
  static script events;
  static run_result wanted;
  if (argc != 5 || !mkdtemp(folder)) return 2;
  snprintf(hex, sizeof hex, "%s/image.hex", folder);
  snprintf(json, sizeof json, "%s/script.json", folder);
  out_file = memfd_create("out", MFD_CLOEXEC);
  error_file = memfd_create("error", MFD_CLOEXEC);
  uint64_t first = strtoull(argv[2], 0, 10), count = strtoull(argv[3], 0, 10), salt = strtoull(argv[4], 0, 10);
  for (uint64_t number = first; number < first + count; number++) {
    make(number, salt, &it, &events);
    write_hex(hex, &it);
    write_json(json, &events);
    uint32_t place = random_below(1u << 30);
    compare(argv[1], number, &it, &events, INSTRUCTIONS, &wanted);
    uint32_t whole = wanted.instructions;
    uint32_t cut = place % 10 == 0 || whole == 1 ? whole : 1 + place % (whole - 1);
    compare(argv[1], number, &it, &events, cut, &wanted);
    if (cut == whole && wanted.status != BUDGET) exact++;
  }
  unlink(hex);
  unlink(json);
  rmdir(folder);
  printf("boards\t%llu\nruns\t%llu\ninstructions\t%llu\nruns that are the same\t%llu\n", (unsigned long long)count, (unsigned long long)runs, (unsigned long long)instructions, (unsigned long long)same);
  printf("left out, loading free words: the same\t%llu\nleft out, loading free words: apart\t%llu\n", (unsigned long long)free_same, (unsigned long long)free_apart);
  printf("budgets of just what a run takes\t%llu\n", (unsigned long long)exact);
  printf("runs that differ\t%llu\n", (unsigned long long)wrong);
  for (int k = 0; k < 24; k++) printf("service %d\t%llu\n", k, (unsigned long long)asked[k]);
  for (int k = 0; k < KINDS; k++) printf("%s\t%llu\n", names[k], (unsigned long long)sums[k]);
  return wrong != 0;
}
