/* A plain interpreter of ARMv6-M Thumb instructions, to compare speeds with. It takes the rows that loops of arithmetic, loads, stores and
   branches use, with the map of docs/MACHINE.md. It is no part of the product.

   interpreter IMAGE COUNT runs so many instructions of the image and prints R0. */
#include <stdint.h>
#include <stdio.h>
#include <stdlib.h>

static uint8_t flash[0x40000];
static uint32_t ram[0x1000];
static uint32_t r[16], base;
static int n, z, c, v;

static void stop(const char *why) { fprintf(stderr, "%s at %x\n", why, r[15]); exit(1); }

static uint32_t load(uint32_t at, int bytes) {
  if (at % bytes) stop("unaligned");
  if (at - 0x20000000u < 0x4000) return ram[(at - 0x20000000) / 4] >> at % 4 * 8 & (bytes == 4 ? ~0u : (1u << bytes * 8) - 1);
  if (at >= sizeof flash) stop("out of map");
  uint32_t w = 0;
  for (int k = 0; k < bytes; k++) w |= (uint32_t)flash[at + k] << k * 8;
  return w;
}

static void store(uint32_t at, int bytes, uint32_t w) {
  if (at % bytes) stop("unaligned");
  if (at - 0x20000000u >= 0x4000) stop("out of map");
  if (at >= 0x20003000 && at >= base) stop("above base");
  uint32_t mask = (bytes == 4 ? ~0u : (1u << bytes * 8) - 1) << at % 4 * 8, *p = &ram[(at - 0x20000000) / 4];
  *p = (*p & ~mask) | (w << at % 4 * 8 & mask);
}

static uint32_t nz(uint32_t w) { n = w >> 31; z = w == 0; return w; }

static uint32_t sum(uint32_t x, uint32_t y, uint32_t carry) {
  uint64_t s = (uint64_t)x + y + carry;
  uint32_t w = (uint32_t)s;
  c = s >> 32; v = ((x ^ w) & (y ^ w)) >> 31;
  return nz(w);
}

static int holds(int cond) {
  int h;
  switch (cond >> 1) {
    case 0: h = z; break;
    case 1: h = c; break;
    case 2: h = n; break;
    case 3: h = v; break;
    case 4: h = c && !z; break;
    case 5: h = n == v; break;
    default: h = !z && n == v; break;
  }
  return cond & 1 ? !h : h;
}

static void step(void) {
  uint32_t pc = r[15];
  if (base % 4 || base < 0x20003000 || base > 0x20004000) stop("stack range");
  if (pc % 2 || pc >= sizeof flash) stop("fetch");
  uint32_t i = flash[pc] | flash[pc + 1] << 8, next = pc + 2;
  int d = i & 7, m = i >> 3 & 7, k = i >> 6 & 31, e = i >> 8 & 7;
  uint32_t imm = i & 255;
  switch (i >> 11) {
    case 0: r[d] = nz(k ? (c = r[m] >> (32 - k) & 1, r[m] << k) : r[m]); break;
    case 1: c = r[m] >> (k ? k - 1 : 31) & 1; r[d] = nz(k ? r[m] >> k : 0); break;
    case 2: c = r[m] >> (k ? k - 1 : 31) & 1; r[d] = nz((uint32_t)((int32_t)r[m] >> (k ? k : 31))); break;
    case 3: {
      uint32_t y = i >> 10 & 1 ? (uint32_t)(i >> 6 & 7) : r[i >> 6 & 7];
      r[d] = i >> 9 & 1 ? sum(r[m], ~y, 1) : sum(r[m], y, 0);
      break;
    }
    case 4: r[e] = nz(imm); break;
    case 5: sum(r[e], ~imm, 1); break;
    case 6: r[e] = sum(r[e], imm, 0); break;
    case 7: r[e] = sum(r[e], ~imm, 1); break;
    case 8:
      if (i >> 10 & 1) stop("not taken");
      switch (i >> 6 & 15) {
        case 0: r[d] = nz(r[d] & r[m]); break;
        case 1: r[d] = nz(r[d] ^ r[m]); break;
        case 5: r[d] = sum(r[d], r[m], c); break;
        case 6: r[d] = sum(r[d], ~r[m], c); break;
        case 9: r[d] = sum(0, ~r[m], 1); break;
        case 10: sum(r[d], ~r[m], 1); break;
        case 12: r[d] = nz(r[d] | r[m]); break;
        case 13: r[d] = nz(r[d] * r[m]); break;
        case 15: r[d] = nz(~r[m]); break;
        default: stop("not taken");
      }
      break;
    case 9: r[e] = load(((pc + 4) & ~3u) + imm * 4, 4); break;
    case 12: store(r[m] + k * 4, 4, r[d]); break;
    case 13: r[d] = load(r[m] + k * 4, 4); break;
    case 14: store(r[m] + k, 1, r[d]); break;
    case 15: r[d] = load(r[m] + k, 1); break;
    case 18: store(r[13] + imm * 4, 4, r[e]); break;
    case 19: r[e] = load(r[13] + imm * 4, 4); break;
    case 22:
      if (i >> 8 & 7) stop("not taken");
      r[13] += i >> 7 & 1 ? -(imm & 127) * 4 : (imm & 127) * 4;
      break;
    case 26: case 27:
      if ((i >> 8 & 15) > 13) stop("not taken");
      if (holds(i >> 8 & 15)) next = pc + 4 + (uint32_t)((int8_t)imm * 2);
      break;
    case 28: next = pc + 4 + (uint32_t)((int32_t)(i << 21) >> 20); break;
    default: stop("not taken");
  }
  if (r[13] < 0x20003000 || r[13] > base) stop("stack range");
  r[15] = next;
}

int main(int argc, char **argv) {
  if (argc != 3) return 2;
  for (size_t k = 0; k < sizeof flash; k++) flash[k] = 0xff;
  FILE *f = fopen(argv[1], "rb");
  if (!f || !fread(flash, 1, sizeof flash, f)) return 2;
  base = r[13] = load(0, 4); r[14] = load(8, 4); r[15] = load(4, 4) - 1;
  for (uint64_t k = strtoull(argv[2], 0, 10); k; k--) step();
  printf("%u\n", r[0]);
  return 0;
}
