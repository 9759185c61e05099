/* An emulator of the board's machine for one fiber, written from ARM DDI 0419 and docs/MACHINE.md, to compare runs with. It is no part of
   the product. */
#include <stddef.h>
#include <stdint.h>

enum { UNDEFINED = 1, UNALIGNED, OUT_OF_MAP, NOT_THUMB, STACK_RANGE, ABOVE_BASE, BREAKPOINT, BAD_SERVICE };
enum { QUIET = 0, PANIC = 3, BUDGET = 4, FAULT = 13 };

typedef struct {
  int status;        /* what the command's status is to be */
  int free_words;    /* whether the run read a stack word that nothing had written, or one outside the stack's live part */
  size_t length;
  char text[65536];  /* the transcript */
} run_result;

/* Runs an image for at most so many instructions. */
void emulate(const uint8_t *image, size_t length, uint32_t budget, run_result *result);
