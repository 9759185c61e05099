/* An assembler of images, and numbers by chance. */
#include "assemble.h"
#include <string.h>

image *it;
uint32_t here, function_at[16], text_place[16];
int call_count;
static uint64_t state;
static struct { uint32_t at, value; int kind; } pool[64];
static int pooled;
static struct { uint32_t at, value; int kind; } words[1024];
static int word_count;
static struct { uint32_t at; int to; } calls[256];

void begin_image(image *to, uint64_t seed) {
  state = seed;
  it = to;
  if (it->length == 0) memset(it->bytes, 0xff, FLASH);
  memset(it->bytes, 0xff, 16384);
  memset(it->bytes + it->far, 0xff, it->length - it->far);
  pooled = word_count = call_count = 0;
  here = 16;
}

uint32_t random_below(uint32_t bound) {
  state += 0x9e3779b97f4a7c15u;
  uint64_t x = state;
  x = (x ^ x >> 30) * 0xbf58476d1ce4e5b9u;
  x = (x ^ x >> 27) * 0x94d049bb133111ebu;
  return (uint32_t)((x ^ x >> 31) >> 16 & 0xffffffffu) % bound;
}

int one_in(uint32_t bound) { return random_below(bound) == 0; }
uint32_t between(uint32_t low, uint32_t high) { return low + random_below(high - low + 1); }
uint32_t any_word(void) { return random_below(0x10000) << 16 | random_below(0x10000); }

/* Bytes. */
void half(uint32_t h) {
  it->bytes[here++] = (uint8_t)h;
  it->bytes[here++] = (uint8_t)(h >> 8);
}

void set_half(uint32_t a, uint32_t h) {
  it->bytes[a] = (uint8_t)h;
  it->bytes[a + 1] = (uint8_t)(h >> 8);
}

void put_word(uint32_t w) {
  half(w);
  half(w >> 16);
}

static void branch_from(uint32_t at, uint32_t to) { set_half(at, 0xe000 | ((to - at - 4) >> 1 & 0x7ff)); }

void put_pool(int over) {
  if (!pooled) return;
  uint32_t branch = here;
  if (over) half(0);
  if (here & 2) half(0xde00);
  for (int k = 0; k < pooled; k++) {
    uint32_t at = pool[k].at;
    it->bytes[at] = (uint8_t)((here - ((at + 4) & ~3u)) / 4);
    words[word_count].at = here;
    words[word_count].value = pool[k].value;
    words[word_count++].kind = pool[k].kind;
    put_word(0);
  }
  pooled = 0;
  if (over) branch_from(branch, here);
}

void load_word(uint32_t reg, int kind, uint32_t value) {
  if (pooled == 60 || (pooled && here - pool[0].at > 500)) put_pool(1);
  pool[pooled].at = here;
  pool[pooled].kind = kind;
  pool[pooled++].value = value;
  half(0x4800 | reg << 8);
}

void constant(uint32_t reg, uint32_t value) {
  int low = value ? __builtin_ctz(value) : 0;
  if (value < 256) {
    half(0x2000 | reg << 8 | value);
  } else if (~value < 256 && one_in(2)) {
    half(0x2000 | reg << 8 | (~value & 255));
    half(0x43c0 | reg << 3 | reg);
  } else if (0u - value < 256 && one_in(2)) {
    half(0x2000 | reg << 8 | (0u - value));
    half(0x4240 | reg << 3 | reg);
  } else if (value >> low < 256 && one_in(2)) {
    half(0x2000 | reg << 8 | value >> low);
    half((uint32_t)low << 6 | reg << 3 | reg);
  } else {
    load_word(reg, VALUE, value);
  }
}

void service(uint32_t number) { half(0xdf00 | number); }
void get_global(uint32_t reg, uint32_t place) { half(0x6800 | place << 6 | 7 << 3 | reg); }
void set_global(uint32_t reg, uint32_t place) { half(0x6000 | place << 6 | 7 << 3 | reg); }

uint32_t skip_unless(uint32_t condition) {
  half(0xd000 | condition << 8);
  half(0xe000);
  return here - 2;
}

void end_skip(uint32_t at) {
  uint32_t far = here - (at + 2), condition = it->bytes[at - 1] & 15;
  if (far < 250 && one_in(2)) {
    set_half(at - 2, 0xd000 | (condition ^ 1) << 8 | ((here - (at + 2)) >> 1));
    set_half(at, 0xbf00);
  } else {
    branch_from(at, here);
  }
}

void back_to(uint32_t top, uint32_t condition) {
  uint32_t back = here + 4 - top;
  if (back < 250) {
    half(0xd000 | condition << 8 | ((0u - back) >> 1 & 255));
  } else {
    half(0xd000 | (condition ^ 1) << 8);
    half(0);
    branch_from(here - 2, top);
  }
}

void put_far_pool(void) {
  if (pooled && here - pool[0].at > 500) put_pool(1);
}

void call(int to) {
  calls[call_count].at = here;
  calls[call_count++].to = to;
  put_word(0);
}

void settle(void) {
  for (int k = 0; k < word_count; k++) {
    here = words[k].at;
    uint32_t v = words[k].value;
    put_word(words[k].kind == VALUE ? v : words[k].kind == CODE ? function_at[v >> 1] + (v & 1) : text_place[v]);
  }
  for (int k = 0; k < call_count; k++) {
    uint32_t offset = function_at[calls[k].to] - calls[k].at - 4, s = offset >> 24 & 1;
    set_half(calls[k].at, 0xf000 | s << 10 | (offset >> 12 & 0x3ff));
    set_half(calls[k].at + 2, 0xd000 | (!((offset >> 23 & 1) ^ s)) << 13 | (!((offset >> 22 & 1) ^ s)) << 11 | (offset >> 1 & 0x7ff));
  }
}
