/* The core: one instruction of a fiber over its bank. */
#include "board.h"

uint8_t shared_words[STACK - RAM];
fiber *self;
uint32_t instruction_at;

/* The word or part of a word at an address that `check_access` let by. SP is the lower of the one before and the one behind the instruction. */
static uint32_t load(uint32_t a, uint32_t bytes) {
  uint32_t word = 0;
  for (uint32_t k = bytes; k-- > 0;) {
    uint32_t from = a + k, byte;
    if (from < FLASH) {
      byte = flash_byte(from);
    } else if (from < STACK) {
      byte = shared_words[from - RAM];
    } else if (from >= self->r[13] && from < self->base && self->known[from - STACK]) {
      byte = self->bank[from - STACK];
    } else {
      load_was_free();
      byte = 0;
    }
    word = word << 8 | byte;
  }
  return word;
}

static void store(uint32_t a, uint32_t bytes, uint32_t word) {
  for (uint32_t k = 0; k < bytes; k++, word >>= 8) {
    if (a + k < STACK) {
      shared_words[a + k - RAM] = (uint8_t)word;
    } else if (a + k >= self->r[13]) {
      self->bank[a + k - STACK] = (uint8_t)word;
      self->known[a + k - STACK] = 1;
    }
  }
}

static void check_access(uint32_t a, uint32_t bytes, int stores) {
  if (a & (bytes - 1)) fault(UNALIGNED, instruction_at);
  int in_ram = a >= RAM && a < TOP, in_flash = a < FLASH;
  if (!in_ram && (stores || !in_flash)) fault(OUT_OF_MAP, instruction_at);
  if (stores && a >= STACK && a >= self->base) fault(ABOVE_BASE, instruction_at);
}

static uint32_t loaded(uint32_t a, uint32_t bytes) {
  check_access(a, bytes, 0);
  return load(a, bytes);
}

static void stored(uint32_t a, uint32_t bytes, uint32_t word) {
  check_access(a, bytes, 1);
  store(a, bytes, word);
}

void move_stack(uint32_t to) {
  for (uint32_t a = to; a < self->r[13]; a++) self->known[a - STACK] = 0;
  self->r[13] = to;
}

static void want_stack(uint32_t sp) {
  if (sp < STACK || sp > self->base) fault(STACK_RANGE, instruction_at);
}

static uint32_t wide(uint32_t word, int bits) {
  uint32_t high = 1u << (bits - 1);
  word &= (high << 1) - 1;
  return (word ^ high) - high;
}

static uint32_t set_nz(uint32_t word) {
  self->n = (int)(word >> 31);
  self->z = word == 0;
  return word;
}

static uint32_t sum(uint32_t x, uint32_t y, int carry) {
  uint64_t whole = (uint64_t)x + y + (uint32_t)carry;
  uint32_t word = (uint32_t)whole;
  self->c = (int)(whole >> 32);
  self->v = (int)(((x ^ word) & (y ^ word)) >> 31);
  return set_nz(word);
}

static uint32_t shift_left(uint32_t x, uint32_t by) {
  if (by) {
    self->c = by <= 32 ? (int)((uint64_t)x << by >> 32 & 1) : 0;
    x = by < 32 ? x << by : 0;
  }
  return set_nz(x);
}

static uint32_t shift_right(uint32_t x, uint32_t by, int keeps_sign) {
  int64_t long_x = keeps_sign ? (int64_t)(int32_t)x : (int64_t)x;
  if (by) {
    uint32_t last = by > 33 ? 33 : by;
    self->c = (int)(long_x >> (last - 1) & 1);
    x = (uint32_t)(long_x >> last);
  }
  return set_nz(x);
}

static uint32_t rotate(uint32_t x, uint32_t by) {
  if (by) {
    by &= 31;
    if (by) x = x >> by | x << (32 - by);
    self->c = (int)(x >> 31);
  }
  return set_nz(x);
}

/* 00: shifts, sums and numbers of eight bits. */
static void short_row(uint32_t i) {
  uint32_t *r = self->r, d = i & 7, m = i >> 3 & 7, five = i >> 6 & 31, three = i >> 6 & 7, eight = i & 255, e = i >> 8 & 7;
  switch (i >> 11) {
    case 0: r[d] = shift_left(r[m], five); break;
    case 1: r[d] = shift_right(r[m], five ? five : 32, 0); break;
    case 2: r[d] = shift_right(r[m], five ? five : 32, 1); break;
    case 3: {
      uint32_t other = i & 0x400 ? three : r[three];
      r[d] = i & 0x200 ? sum(r[m], ~other, 1) : sum(r[m], other, 0);
      break;
    }
    case 4: r[e] = set_nz(eight); break;
    case 5: sum(r[e], ~eight, 1); break;
    case 6: r[e] = sum(r[e], eight, 0); break;
    default: r[e] = sum(r[e], ~eight, 1); break;
  }
}

static void logic_row(uint32_t i) {
  uint32_t *d = &self->r[i & 7], m = self->r[i >> 3 & 7];
  switch (i >> 6 & 15) {
    case 0: *d = set_nz(*d & m); break;
    case 1: *d = set_nz(*d ^ m); break;
    case 2: *d = shift_left(*d, m & 255); break;
    case 3: *d = shift_right(*d, m & 255, 0); break;
    case 4: *d = shift_right(*d, m & 255, 1); break;
    case 5: *d = sum(*d, m, self->c); break;
    case 6: *d = sum(*d, ~m, self->c); break;
    case 7: *d = rotate(*d, m & 255); break;
    case 8: set_nz(*d & m); break;
    case 9: *d = sum(~m, 0, 1); break;
    case 10: sum(*d, ~m, 1); break;
    case 11: sum(*d, m, 0); break;
    case 12: *d = set_nz(*d | m); break;
    case 13: *d = set_nz(*d * m); break;
    case 14: *d = set_nz(*d & ~m); break;
    default: *d = set_nz(~m); break;
  }
}

/* 010001: ADD, CMP and MOV over all registers, BX and BLX. Gives where the run goes on. */
static uint32_t high_row(uint32_t i, uint32_t next) {
  uint32_t d = (i & 7) | (i >> 4 & 8), m = i >> 3 & 15, op = i >> 8 & 3;
  uint32_t from = m == 15 ? instruction_at + 4 : self->r[m];
  if (op == 3) {
    if (m == 15 || i & 7) fault(UNDEFINED, instruction_at);
    if (!(from & 1)) fault(NOT_THUMB, instruction_at);
    if (i & 0x80) self->r[14] = next | 1;
    return from & ~1u;
  }
  if (op == 1) {
    if (m == 15 || d == 15 || (m < 8 && d < 8)) fault(UNDEFINED, instruction_at);
    sum(self->r[d], ~from, 1);
    return next;
  }
  if (op == 0) {
    if (m == 15 && d == 15) fault(UNDEFINED, instruction_at);
    from += d == 15 ? instruction_at + 4 : self->r[d];
  }
  if (d == 15) return from & ~1u;
  if (d == 13) {
    want_stack(from & ~3u);
    move_stack(from & ~3u);
  } else {
    self->r[d] = from;
  }
  return next;
}

/* 0101 to 1001: loads and stores of one register. */
static void access_row(uint32_t i) {
  uint32_t *r = self->r, *t = &r[i & 7], n = r[i >> 3 & 7], five = i >> 6 & 31, a;
  switch (i >> 12) {
    case 5:
      a = n + r[i >> 6 & 7];
      switch (i >> 9 & 7) {
        case 0: stored(a, 4, *t); break;
        case 1: stored(a, 2, *t); break;
        case 2: stored(a, 1, *t); break;
        case 3: *t = wide(loaded(a, 1), 8); break;
        case 4: *t = loaded(a, 4); break;
        case 5: *t = loaded(a, 2); break;
        case 6: *t = loaded(a, 1); break;
        default: *t = wide(loaded(a, 2), 16); break;
      }
      break;
    case 6: if (i & 0x800) *t = loaded(n + five * 4, 4); else stored(n + five * 4, 4, *t); break;
    case 7: if (i & 0x800) *t = loaded(n + five, 1); else stored(n + five, 1, *t); break;
    case 8: if (i & 0x800) *t = loaded(n + five * 2, 2); else stored(n + five * 2, 2, *t); break;
    default:
      a = r[13] + (i & 255) * 4;
      if (i & 0x800) r[i >> 8 & 7] = loaded(a, 4); else stored(a, 4, r[i >> 8 & 7]);
  }
}

static void push_row(uint32_t i) {
  uint32_t list = (i & 255) | (i & 0x100) << 6, count = (uint32_t)__builtin_popcount(list), a = self->r[13] - 4 * count, old[16];
  if (!list) fault(UNDEFINED, instruction_at);
  want_stack(a);
  for (uint32_t k = 0; k < count; k++) check_access(a + 4 * k, 4, 1);
  for (int k = 0; k < 16; k++) old[k] = self->r[k];
  move_stack(a);
  for (int k = 0; k < 15; k++) {
    if (list >> k & 1) store(a, 4, old[k]), a += 4;
  }
}

static uint32_t pop_row(uint32_t i, uint32_t next) {
  uint32_t list = (i & 255) | (i & 0x100) << 7, count = (uint32_t)__builtin_popcount(list), from = self->r[13], words[9], k = 0;
  if (!list) fault(UNDEFINED, instruction_at);
  want_stack(from + 4 * count);
  for (uint32_t j = 0; j < count; j++) check_access(from + 4 * j, 4, 0);
  for (uint32_t j = 0; j < count; j++) words[j] = load(from + 4 * j, 4);
  if (list >> 15 && !(words[count - 1] & 1)) fault(NOT_THUMB, instruction_at);
  for (int j = 0; j < 8; j++) {
    if (list >> j & 1) self->r[j] = words[k++];
  }
  move_stack(from + 4 * count);
  return list >> 15 ? words[k] & ~1u : next;
}

static void reverse_row(uint32_t i) {
  uint32_t *d = &self->r[i & 7], w = self->r[i >> 3 & 7];
  uint32_t halves = (w & 0x00ff00ff) << 8 | (w >> 8 & 0x00ff00ff);
  switch (i >> 6 & 3) {
    case 0: *d = halves << 16 | halves >> 16; break;
    case 1: *d = halves; break;
    case 3: *d = wide(halves, 16); break;
    default: fault(UNDEFINED, instruction_at);
  }
}

/* 1011: what has no form in common. */
static uint32_t mixed_row(uint32_t i, uint32_t next) {
  uint32_t *r = self->r, *d = &r[i & 7], m = r[i >> 3 & 7], to;
  switch (i >> 8 & 15) {
    case 0:
      to = i & 0x80 ? r[13] - (i & 127) * 4 : r[13] + (i & 127) * 4;
      want_stack(to);
      move_stack(to);
      break;
    case 2:
      switch (i >> 6 & 3) {
        case 0: *d = wide(m, 16); break;
        case 1: *d = wide(m, 8); break;
        case 2: *d = m & 0xffff; break;
        default: *d = m & 0xff; break;
      }
      break;
    case 4: case 5: push_row(i); break;
    case 10: reverse_row(i); break;
    case 12: case 13: return pop_row(i, next);
    case 14: fault(BREAKPOINT, instruction_at);
    case 15: if (i & 15 || (i & 255) > 0x40) fault(UNDEFINED, instruction_at); break;
    default: fault(UNDEFINED, instruction_at);
  }
  return next;
}

/* 1100: STM and LDM. */
static void several_row(uint32_t i) {
  uint32_t e = i >> 8 & 7, list = i & 255, a = self->r[e], words[8], count = 0;
  if (!list) fault(UNDEFINED, instruction_at);
  if (i & 0x800) {
    for (uint32_t k = 0; k < (uint32_t)__builtin_popcount(list); k++) check_access(a + 4 * k, 4, 0);
    for (uint32_t k = 0; k < (uint32_t)__builtin_popcount(list); k++) words[k] = load(a + 4 * k, 4);
    for (int k = 0; k < 8; k++) {
      if (list >> k & 1) self->r[k] = words[count++];
    }
    if (!(list >> e & 1)) self->r[e] = a + 4 * count;
    return;
  }
  if (list >> e & 1 && list & ((1u << e) - 1)) fault(UNDEFINED, instruction_at);
  for (uint32_t k = 0; k < (uint32_t)__builtin_popcount(list); k++) check_access(a + 4 * k, 4, 1);
  for (int k = 0; k < 8; k++) {
    if (list >> k & 1) store(a + 4 * count++, 4, self->r[k]);
  }
  self->r[e] = a + 4 * count;
}

static int condition(uint32_t number) {
  int n = self->n, z = self->z, c = self->c, v = self->v, holds;
  switch (number >> 1) {
    case 0: holds = z; break;
    case 1: holds = c; break;
    case 2: holds = n; break;
    case 3: holds = v; break;
    case 4: holds = c && !z; break;
    case 5: holds = n == v; break;
    default: holds = !z && n == v; break;
  }
  return number & 1 ? !holds : holds;
}

static uint32_t long_branch(uint32_t i) {
  if (instruction_at + 2 >= FLASH) fault(OUT_OF_MAP, instruction_at);
  uint32_t j = flash_byte(instruction_at + 2) | flash_byte(instruction_at + 3) << 8, s = i >> 10 & 1;
  if (i >> 11 != 30 || (j & 0xd000) != 0xd000) fault(UNDEFINED, instruction_at);
  uint32_t i1 = (j >> 13 & 1) == s, i2 = (j >> 11 & 1) == s;
  self->r[14] = (instruction_at + 4) | 1;
  return instruction_at + 4 + wide(s << 24 | i1 << 23 | i2 << 22 | (i & 0x3ff) << 12 | (j & 0x7ff) << 1, 25);
}

int step(void) {
  uint32_t base = self->base, at = self->r[15];
  if (base & 3 || base < STACK || base > TOP) fault(STACK_RANGE, base);
  if (at & 1) fault(NOT_THUMB, at + 1);
  instruction_at = at;
  if (at >= FLASH) fault(OUT_OF_MAP, at);
  uint32_t i = flash_byte(at) | flash_byte(at + 1) << 8, next = at + 2, aligned = (at + 4) & ~3u;
  switch (i >> 12) {
    case 0: case 1: case 2: case 3: short_row(i); break;
    case 4:
      if (i & 0x800) self->r[i >> 8 & 7] = loaded(aligned + (i & 255) * 4, 4);
      else if (i & 0x400) next = high_row(i, next);
      else logic_row(i);
      break;
    case 5: case 6: case 7: case 8: case 9: access_row(i); break;
    case 10: self->r[i >> 8 & 7] = (i & 0x800 ? self->r[13] : aligned) + (i & 255) * 4; break;
    case 11: next = mixed_row(i, next); break;
    case 12: several_row(i); break;
    case 13:
      if ((i >> 8 & 15) == 14) fault(UNDEFINED, at);
      if ((i >> 8 & 15) == 15) {
        self->r[15] = next;
        return (int)(i & 255);
      }
      if (condition(i >> 8 & 15)) next = at + 4 + wide((i & 255) << 1, 9);
      break;
    case 14: next = i & 0x800 ? long_branch(i) : at + 4 + wide((i & 0x7ff) << 1, 12); break;
    default: next = long_branch(i);
  }
  self->r[15] = next;
  return -1;
}
