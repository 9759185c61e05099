/* Random images, and scripts for them. */
#include "board.h"

typedef struct {
  uint8_t bytes[FLASH];
  uint32_t length;            /* up to the highest byte */
  uint32_t low, far;          /* the bytes given are those below `low`, and those from `far` on */
} image;

/* Makes the image and the script of a number, out of idioms or of random halfwords. */
void make(uint64_t number, uint64_t salt, image *to, script *events);
/* Makes a script whose events have mostly one of three sources and values. */
void make_script(script *to, const uint32_t *sources, const uint32_t *values);
/* Numbers for the cuts, behind the image's own. */
uint32_t random_below(uint32_t bound);
