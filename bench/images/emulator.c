#include "emulator.h"
#include <setjmp.h>
#include <stdio.h>
#include <string.h>

#define RAM 0x20000000u
#define STACK 0x20003000u
#define TOP 0x20004000u
#define FLASH 0x40000u

static const uint8_t *image;
static size_t image_length;
static uint8_t ram[TOP - RAM], written[TOP - RAM];
static uint32_t r[16], base, at, lowest;
static int n, z, c, v, reads_free;
static jmp_buf stopped;
static int fault_kind;
static uint32_t fault_at;

static void stop(int kind, uint32_t address) {
  fault_kind = kind;
  fault_at = address;
  longjmp(stopped, 1);
}

static uint8_t flash_byte(uint32_t a) { return a < image_length ? image[a] : 0xff; }

static uint32_t flash_word(uint32_t a) {
  return flash_byte(a) | flash_byte(a + 1) << 8 | flash_byte(a + 2) << 16 | (uint32_t)flash_byte(a + 3) << 24;
}

/* What an access would fault with comes in this order: alignment, the map, the stack's base. */
static void check(uint32_t a, int bytes, int store) {
  if (a % bytes) stop(UNALIGNED, at);
  if (a - RAM < TOP - RAM) {
    if (store && a >= STACK && a >= base) stop(ABOVE_BASE, at);
  } else if (store || a >= FLASH) {
    stop(OUT_OF_MAP, at);
  }
}

static uint32_t load(uint32_t a, int bytes) {
  uint32_t w = 0;
  for (int k = 0; k < bytes; k++) {
    if (a - RAM < TOP - RAM) {
      if (a >= STACK && (a < lowest || a >= base || !written[a + k - RAM])) reads_free = 1;
      w |= (uint32_t)ram[a + k - RAM] << 8 * k;
    } else {
      w |= (uint32_t)flash_byte(a + k) << 8 * k;
    }
  }
  return w;
}

static void store(uint32_t a, int bytes, uint32_t w) {
  for (int k = 0; k < bytes; k++) {
    ram[a + k - RAM] = w >> 8 * k;
    written[a + k - RAM] = a < STACK || a >= lowest;
  }
}

/* The words that leave the stack as SP rises are gone. */
static void move_stack(uint32_t to) {
  for (uint32_t a = r[13]; a < to && a < TOP; a++) written[a - RAM] = 0;
  r[13] = to;
}

static void in_range(uint32_t sp) {
  if (sp < STACK || sp > base) stop(STACK_RANGE, at);
}

static uint32_t nz(uint32_t w) {
  n = w >> 31;
  z = w == 0;
  return w;
}

static uint32_t add_with_carry(uint32_t x, uint32_t y, uint32_t carry) {
  uint64_t u = (uint64_t)x + y + carry;
  int64_t s = (int64_t)(int32_t)x + (int32_t)y + carry;
  uint32_t w = (uint32_t)u;
  c = u != w;
  v = s != (int32_t)w;
  return nz(w);
}

/* Shifts of kind 0 to 3 (left, right, arithmetic right, rotate) by a count of 0 to 255. */
static uint32_t shifted(int kind, uint32_t x, uint32_t by) {
  if (by) {
    switch (kind) {
      case 0: c = by > 32 ? 0 : x >> (32 - by) & 1; x = by > 31 ? 0 : x << by; break;
      case 1: c = by > 32 ? 0 : x >> (by - 1) & 1; x = by > 31 ? 0 : x >> by; break;
      case 2: if (by > 32) by = 32; c = (int64_t)(int32_t)x >> (by - 1) & 1; x = (uint32_t)((int64_t)(int32_t)x >> by); break;
      default: by &= 31; x = by ? x >> by | x << (32 - by) : x; c = x >> 31; break;
    }
  }
  return nz(x);
}

static int holds(int cond) {
  int h[] = { z, !z, c, !c, n, !n, v, !v, c && !z, !c || z, n == v, n != v, !z && n == v, z || n != v };
  return h[cond];
}

static uint32_t get(int k) { return k == 15 ? at + 4 : r[k]; }

static uint32_t sign(uint32_t w, int bits) { return w >> (bits - 1) & 1 ? w | ~0u << bits : w; }

static int ones(uint32_t list) { return __builtin_popcount(list); }

/* One instruction. Gives -1, or the number of the service that it asks for. */
static int step(void) {
  if (base % 4 || base < STACK || base > TOP) stop(STACK_RANGE, base);
  at = r[15];
  if (at & 1) stop(NOT_THUMB, at + 1);
  if (at >= FLASH) stop(OUT_OF_MAP, at);
  uint32_t i = flash_byte(at) | flash_byte(at + 1) << 8, next = at + 2;
  lowest = r[13];
  int d = i & 7, m = i >> 3 & 7, e = i >> 8 & 7, imm5 = i >> 6 & 31;
  uint32_t imm = i & 255, a, w, pc = (at + 4) & ~3u;
  switch (i >> 11) {
    case 0: r[d] = imm5 ? shifted(0, r[m], imm5) : nz(r[m]); break;
    case 1: r[d] = shifted(1, r[m], imm5 ? imm5 : 32); break;
    case 2: r[d] = shifted(2, r[m], imm5 ? imm5 : 32); break;
    case 3: w = i >> 10 & 1 ? (i >> 6 & 7) : r[i >> 6 & 7]; r[d] = i >> 9 & 1 ? add_with_carry(r[m], ~w, 1) : add_with_carry(r[m], w, 0); break;
    case 4: r[e] = nz(imm); break;
    case 5: add_with_carry(r[e], ~imm, 1); break;
    case 6: r[e] = add_with_carry(r[e], imm, 0); break;
    case 7: r[e] = add_with_carry(r[e], ~imm, 1); break;
    case 8:
      if (!(i >> 10 & 1)) {
        switch (i >> 6 & 15) {
          case 0: r[d] = nz(r[d] & r[m]); break;
          case 1: r[d] = nz(r[d] ^ r[m]); break;
          case 2: r[d] = shifted(0, r[d], r[m] & 255); break;
          case 3: r[d] = shifted(1, r[d], r[m] & 255); break;
          case 4: r[d] = shifted(2, r[d], r[m] & 255); break;
          case 5: r[d] = add_with_carry(r[d], r[m], c); break;
          case 6: r[d] = add_with_carry(r[d], ~r[m], c); break;
          case 7: r[d] = shifted(3, r[d], r[m] & 255); break;
          case 8: nz(r[d] & r[m]); break;
          case 9: r[d] = add_with_carry(~r[m], 0, 1); break;
          case 10: add_with_carry(r[d], ~r[m], 1); break;
          case 11: add_with_carry(r[d], r[m], 0); break;
          case 12: r[d] = nz(r[d] | r[m]); break;
          case 13: r[d] = nz(r[d] * r[m]); break;
          case 14: r[d] = nz(r[d] & ~r[m]); break;
          default: r[d] = nz(~r[m]); break;
        }
        break;
      } else {
        int op = i >> 8 & 3, high = (i >> 4 & 8) | d, from = i >> 3 & 15;
        if (op == 1) {
          if ((high < 8 && from < 8) || high == 15 || from == 15) stop(UNDEFINED, at);
          add_with_carry(get(high), ~get(from), 1);
        } else if (op == 3) {
          if (i & 7 || from == 15) stop(UNDEFINED, at);
          w = get(from);
          if (!(w & 1)) stop(NOT_THUMB, at);
          if (i >> 7 & 1) r[14] = next | 1;
          next = w - 1;
        } else {
          if (op == 0 && high == 15 && from == 15) stop(UNDEFINED, at);
          w = op == 0 ? get(high) + get(from) : get(from);
          if (high == 15) next = w & ~1u;
          else if (high == 13) in_range(w & ~3u), move_stack(w & ~3u);
          else r[high] = w;
        }
      }
      break;
    case 9: a = pc + imm * 4; check(a, 4, 0); r[e] = load(a, 4); break;
    case 10: case 11:
      a = r[m] + r[i >> 6 & 7];
      switch (i >> 9 & 7) {
        case 0: check(a, 4, 1); store(a, 4, r[d]); break;
        case 1: check(a, 2, 1); store(a, 2, r[d]); break;
        case 2: check(a, 1, 1); store(a, 1, r[d]); break;
        case 3: check(a, 1, 0); r[d] = sign(load(a, 1), 8); break;
        case 4: check(a, 4, 0); r[d] = load(a, 4); break;
        case 5: check(a, 2, 0); r[d] = load(a, 2); break;
        case 6: check(a, 1, 0); r[d] = load(a, 1); break;
        default: check(a, 2, 0); r[d] = sign(load(a, 2), 16); break;
      }
      break;
    case 12: a = r[m] + imm5 * 4; check(a, 4, 1); store(a, 4, r[d]); break;
    case 13: a = r[m] + imm5 * 4; check(a, 4, 0); r[d] = load(a, 4); break;
    case 14: a = r[m] + imm5; check(a, 1, 1); store(a, 1, r[d]); break;
    case 15: a = r[m] + imm5; check(a, 1, 0); r[d] = load(a, 1); break;
    case 16: a = r[m] + imm5 * 2; check(a, 2, 1); store(a, 2, r[d]); break;
    case 17: a = r[m] + imm5 * 2; check(a, 2, 0); r[d] = load(a, 2); break;
    case 18: a = r[13] + imm * 4; check(a, 4, 1); store(a, 4, r[e]); break;
    case 19: a = r[13] + imm * 4; check(a, 4, 0); r[e] = load(a, 4); break;
    case 20: r[e] = pc + imm * 4; break;
    case 21: r[e] = r[13] + imm * 4; break;
    case 22: case 23:
      switch (i >> 8 & 15) {
        case 0:
          a = i >> 7 & 1 ? r[13] - (imm & 127) * 4 : r[13] + (imm & 127) * 4;
          in_range(a);
          move_stack(a);
          break;
        case 2:
          switch (i >> 6 & 3) {
            case 0: r[d] = sign(r[m] & 0xffff, 16); break;
            case 1: r[d] = sign(r[m] & 0xff, 8); break;
            case 2: r[d] = r[m] & 0xffff; break;
            default: r[d] = r[m] & 0xff; break;
          }
          break;
        case 4: case 5: {
          uint32_t list = imm | (i >> 8 & 1) << 14;
          if (!list) stop(UNDEFINED, at);
          a = r[13] - 4 * ones(list);
          in_range(a);
          for (int k = 0; k < ones(list); k++) check(a + 4 * k, 4, 1);
          lowest = a;
          uint32_t to = a;
          for (int k = 0; k < 15; k++) if (list >> k & 1) store(to, 4, r[k]), to += 4;
          r[13] = a;
          break;
        }
        case 12: case 13: {
          uint32_t list = imm | (i >> 8 & 1) << 15, words[9];
          if (!list) stop(UNDEFINED, at);
          int count = ones(list), k = 0;
          a = r[13] + 4 * count;
          in_range(a);
          for (int j = 0; j < count; j++) check(r[13] + 4 * j, 4, 0);
          for (int j = 0; j < count; j++) words[j] = load(r[13] + 4 * j, 4);
          if (list >> 15 && !(words[count - 1] & 1)) stop(NOT_THUMB, at);
          for (int j = 0; j < 8; j++) if (list >> j & 1) r[j] = words[k++];
          if (list >> 15) next = words[k] - 1;
          move_stack(a);
          break;
        }
        case 10:
          w = r[m];
          switch (i >> 6 & 3) {
            case 0: r[d] = w << 24 | (w << 8 & 0xff0000) | (w >> 8 & 0xff00) | w >> 24; break;
            case 1: r[d] = (w << 8 & 0xff00ff00) | (w >> 8 & 0x00ff00ff); break;
            case 3: r[d] = sign((w << 8 & 0xff00) | (w >> 8 & 0xff), 16); break;
            default: stop(UNDEFINED, at);
          }
          break;
        case 14: stop(BREAKPOINT, at); break;
        case 15: if (i & 15 || imm >> 4 > 4) stop(UNDEFINED, at); break;
        default: stop(UNDEFINED, at);
      }
      break;
    case 24: {
      if (!imm || (imm >> e & 1 && imm & ((1u << e) - 1))) stop(UNDEFINED, at);
      for (int k = 0; k < ones(imm); k++) check(r[e] + 4 * k, 4, 1);
      a = r[e];
      for (int k = 0; k < 8; k++) if (imm >> k & 1) store(a, 4, r[k]), a += 4;
      r[e] = a;
      break;
    }
    case 25: {
      uint32_t words[8];
      int count = ones(imm), k = 0;
      if (!imm) stop(UNDEFINED, at);
      for (int j = 0; j < count; j++) check(r[e] + 4 * j, 4, 0);
      for (int j = 0; j < count; j++) words[j] = load(r[e] + 4 * j, 4);
      if (!(imm >> e & 1)) r[e] += 4 * count;
      for (int j = 0; j < 8; j++) if (imm >> j & 1) r[j] = words[k++];
      break;
    }
    case 26: case 27:
      if ((i >> 8 & 15) == 14) stop(UNDEFINED, at);
      if ((i >> 8 & 15) == 15) {
        r[15] = next;
        return imm;
      }
      if (holds(i >> 8 & 15)) next = at + 4 + sign(imm, 8) * 2;
      break;
    case 28: next = at + 4 + sign(i & 0x7ff, 11) * 2; break;
    case 30: {
      if (at + 2 >= FLASH) stop(OUT_OF_MAP, at);
      uint32_t j = flash_byte(at + 2) | flash_byte(at + 3) << 8, s = i >> 10 & 1;
      if (j >> 14 != 3 || !(j >> 12 & 1)) stop(UNDEFINED, at);
      uint32_t i1 = !((j >> 13 & 1) ^ s), i2 = !((j >> 11 & 1) ^ s);
      r[14] = (at + 4) | 1;
      next = at + 4 + sign(s << 24 | i1 << 23 | i2 << 22 | (i & 0x3ff) << 12 | (j & 0x7ff) << 1, 25);
      break;
    }
    default:
      if (at + 2 >= FLASH) stop(OUT_OF_MAP, at);
      stop(UNDEFINED, at);
  }
  r[15] = next;
  return -1;
}

static void say(run_result *result, const char *form, uint32_t x, uint32_t y) {
  result->length += snprintf(result->text + result->length, sizeof result->text - result->length, form, x, y);
}

static void write_number(run_result *result, int32_t number) {
  char digits[16];
  int count = snprintf(digits, sizeof digits, "%d", number);
  say(result, "0 serial ", 0, 0);
  for (int k = 0; k < count; k++) say(result, "%02x", digits[k], 0);
  say(result, "\n", 0, 0);
}

/* Division and remainder of the language: towards zero, and 0 where the divisor is 0. */
static int32_t quotient(int32_t x, int32_t y) { return y == 0 ? 0 : (int32_t)((int64_t)x / y); }
static int32_t rest(int32_t x, int32_t y) { return y == 0 ? 0 : (int32_t)((int64_t)x % y); }

void emulate(const uint8_t *bytes, size_t length, uint32_t budget, run_result *result) {
  image = bytes;
  image_length = length;
  memset(ram, 0, sizeof ram);
  memset(written, 0, sizeof written);
  memset(written, 1, STACK - RAM);
  memset(r, 0, sizeof r);
  n = z = c = v = reads_free = 0;
  base = r[13] = flash_word(0);
  r[14] = flash_word(8);
  r[15] = flash_word(4) - 1;
  result->length = 0;
  if (setjmp(stopped)) {
    result->status = FAULT;
    say(result, "fault 0 %u %08x\n", fault_kind, fault_at);
  } else {
    result->status = -1;
    for (uint32_t k = 0; k < budget && result->status < 0; k++) {
      int service = step();
      switch (service) {
        case -1: break;
        case 0: result->status = QUIET; say(result, "end 0 quiet\n", 0, 0); break;
        case 1: result->status = PANIC; say(result, "panic 0 %u\n", r[0] & 255, 0); break;
        case 12: write_number(result, (int32_t)r[0]); break;
        case 20: r[0] = quotient((int32_t)r[0], (int32_t)r[1]); break;
        case 21: r[0] = rest((int32_t)r[0], (int32_t)r[1]); break;
        default: stop(BAD_SERVICE, at);
      }
    }
    if (result->status < 0) {
      result->status = BUDGET;
      say(result, "budget 0\n", 0, 0);
    }
  }
  result->free_words = reads_free;
}
