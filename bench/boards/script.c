/* Random scripts. */
#include "assemble.h"

void make_script(script *to, const uint32_t *sources, const uint32_t *values) {
  static const uint32_t gaps[] = { 0, 0, 0, 1, 1, 2, 5, 5, 20, 100, 999, 1000, 1001 };
  uint32_t at = 0, most = one_in(3) ? 0 : one_in(100) ? 4097 : one_in(6) ? 60 : 14;
  to->count = most ? random_below(most) : 0;
  int down[3] = { 0 };
  for (size_t k = 0; k < to->count; k++) {
    entry *e = &to->entries[k];
    at += gaps[random_below(13)];
    e->at = at;
    uint32_t which = random_below(40), button = between(1, 2);
    if (which < 20) {
      *e = (entry){ at, down[button] != (int)one_in(8) ? UP : DOWN, button, 0 };
      down[button] = e->what == DOWN;
    } else if (which < 38) {
      *e = (entry){ at, RAISE, one_in(8) ? random_below(65536) : sources[random_below(3)] & 0xffff, one_in(8) ? random_below(65536) : values[random_below(3)] & 0xffff };
    } else {
      *e = (entry){ at, UNPLUG, random_below(4), 0 };
    }
  }
  to->end = one_in(4) ? at : one_in(10) ? 1073741824 : at + random_below(one_in(2) ? 60 : 3000);
}
