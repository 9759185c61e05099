/* Random images out of idioms: loads of constants, services with arguments, loops with a counter, tests, calls, frames, stores and loads, the
   bodies of handlers and of other fibers, faults, and random halfwords. r7 holds the address of the globals, r4 to r6 count loops. */
#include "assemble.h"
#include <string.h>

enum { COUNTERS = 0, ARRAYS = 16, NUMBERS = 20, SAVED = 28 };   /* words of the globals: below 32, so that one instruction reaches them */
enum { FUNCTIONS = 9, CALLED = 3, MOST_TEXTS = 6 };
enum { MIXED, SEATS, LISTENERS, NEST, QUEUE, HOLD, FILL, DEEP, TIMES, HALFWORDS, NOISE, PROFILES };

static uint32_t room_left;
static int functions, texts, profile, loops, in_called, is_framed, risk;
static uint32_t sources[3], values[3];

/* What follows is done so often at most, by whoever comes here. */
static uint32_t at_most(uint32_t times) {
  uint32_t place = COUNTERS + random_below(16);
  get_global(0, place);
  half(0x3001);
  set_global(0, place);
  half(0x2800 | times);
  return skip_unless(13);
}

/* Sources, values and other arguments. */
static void source(uint32_t reg, int may_be_any) {
  uint32_t which = random_below(12);
  constant(reg, which < 8 ? sources[which % 3] : which == 8 && may_be_any ? 0 : which == 9 ? between(0, 2) : which == 10 ? any_word() : sources[0]);
}

static void value(uint32_t reg, int may_be_any) {
  uint32_t which = random_below(10);
  constant(reg, which < 6 ? values[which % 3] : which < 8 && may_be_any ? 0 : which == 8 ? between(0, 4) : which == 9 && one_in(4) ? any_word() : values[0]);
}

static uint32_t some_number(void) {
  static const uint32_t ends[] = { 0, 1, 9, 10, 99, 100, 255, 256, 0x7fffffff, 0x80000000, 0xffffffff, 0xfffffff6, 0x01ffffff, 0x02000000 };
  switch (random_below(4)) {
    case 0: return any_word();
    case 1: return ends[random_below(sizeof ends / sizeof *ends)];
    default: return random_below(300);
  }
}

static void some(uint32_t reg) {
  switch (random_below(5)) {
    case 0: get_global(reg, NUMBERS + random_below(8)); break;
    case 1: get_global(reg, COUNTERS + random_below(16)); break;
    default: constant(reg, some_number());
  }
}

static uint32_t any_function(void) { return 1 + random_below((uint32_t)functions - 1); }

static void code_address(uint32_t reg) {
  uint32_t which = any_function();
  load_word(reg, CODE, which << 1 | (risk && one_in(40) ? 0 : 1));
}

static void body(int count);

/* Idioms. */
static void say_number(void) {
  switch (random_below(6)) {
    case 0: service(7); break;
    case 1: service(8); break;
    case 2: some(0); break;
    case 3:
      some(0);
      some(1);
      if (one_in(6)) constant(0, 0x80000000), constant(1, 0u - random_below(3));
      service(20 + random_below(2));
      break;
    default: break;
  }
  service(one_in(4) ? 15 : 12);
}

static void some_text(void) { load_word(0, WORDS, random_below((uint32_t)texts + (risk && one_in(15) ? 2 : 0))); }

static void picture(void) {
  switch (random_below(5)) {
    case 0: some(0); service(11); break;
    case 1: case 2:
      constant(0, one_in(8) ? any_word() : between(0, 5));
      constant(1, one_in(8) ? 0xffffffff : between(0, 5));
      constant(2, risk && one_in(60) ? between(3, 300) : between(0, 2));
      service(10);
      break;
    case 3:
      some(0);
      constant(1, one_in(10) ? some_number() : random_below(5));
      service(17);
      service(one_in(2) ? 12 : 11);
      break;
    default:
      some_text();
      constant(1, one_in(10) ? some_number() : random_below(8));
      service(16);
      service(one_in(2) ? 12 : 11);
  }
}

static void speak(void) {
  switch (random_below(4)) {
    case 0: some_text(); service(13); break;
    case 1: constant(0, one_in(10) ? some_number() : between(0, 22)); some(1); service(14); break;
    case 2: some(0); service(15); break;
    default:
      constant(0, one_in(6) ? between(0, 4) : between(1, 2));
      service(9);
      service(12);
  }
}

static void compute(void) {
  for (uint32_t k = between(1, 6); k > 0; k--) {
    uint32_t h = random_below(0x4400);
    if (h < 0x2000) h &= 0xffdb & ~0x24u;                              /* low registers 0 to 3 alone */
    else if (h < 0x4000) h &= 0xfbff;
    else h = 0x4000 | (h & 0x3db & ~0x24u);
    half(h);
  }
  set_global(random_below(4), NUMBERS + random_below(8));
}

static void high_registers(void) {
  uint32_t high = between(8, 12), low = random_below(4);
  half(0x4680 | (high & 7) | low << 3);                                /* MOV high, low */
  if (one_in(2)) half(0x4480 | (high & 7) | random_below(4) << 3);     /* ADD high, low */
  half(0x4580 | (high & 7) | random_below(4) << 3);                    /* CMP high, low */
  half(0x4600 | high << 3 | random_below(4));                          /* MOV low, high */
}

static void memory(void) {
  switch (random_below(6)) {
    case 5:                                                            /* words of the arena, used or not */
      constant(3, ARENA + 4 * random_below(80));
      for (uint32_t k = 0; k < 3; k++) some(k);
      half(0xc307);
      break;
    case 0: some(0); set_global(0, NUMBERS + random_below(8)); break;
    case 1:
      some(0);
      half((one_in(2) ? 0x7000 : 0x8000) | between(24, 31) << 6 | 7 << 3);
      half((one_in(2) ? 0x7800 : 0x8800) | between(24, 31) << 6 | 7 << 3);
      service(12);
      break;
    case 2:
      half(0x1c3b);                                                    /* ADDS r3, r7, #0 */
      half(0x3350);
      half(0xc300 | between(1, 7));
      half(0x1c3b);
      half(0x3350);
      half(0xcb00 | between(1, 7));
      break;
    case 3:
      constant(1, 80 + (risk && one_in(20) ? random_below(32) : 4 * random_below(8)));
      half(0x5000 | between(3, 7) << 9 | 1 << 6 | 7 << 3);
      break;
    default: get_global(random_below(4), NUMBERS + random_below(8));
  }
}

static void pause_some(void) {
  static const uint32_t times[] = { 0, 1, 1, 2, 2, 3, 5, 5, 20, 20, 100, 400, 1000, 0xffffffff, 0x7fffffff, 0x80000000 };
  constant(0, times[random_below(one_in(6) ? 16 : 13)]);
  service(2);
}

/* What blocks, raises or writes, and moves no SP. */
static void simple(void) {
  switch (random_below(4)) {
    case 0: say_number(); break;
    case 1: pause_some(); break;
    case 2: source(0, 0); value(1, 0); service(6); break;
    default: {
      uint32_t skip = at_most(between(2, 40));
      source(0, 0);
      value(1, 0);
      service(23);
      end_skip(skip);
    }
  }
}

static void frame(void) {
  uint32_t n = between(1, 6), list = between(1, 15);
  switch (random_below(3)) {
    case 0:
      half(0xb400 | list);
      body((int)between(1, 3));
      half(0xbc00 | (one_in(3) ? list : list >> 1 | (list & 1) << 3));
      service(12);
      break;
    case 1:
      half(0xb080 | n);
      for (uint32_t k = 0; k < n; k++) half(0x9000 | random_below(4) << 8 | k);
      body((int)between(1, 3));
      half(0x9800 | random_below(4) << 8 | random_below(n));
      service(12);
      half(0xb000 | n);
      break;
    default:
      half(0x46e8 | 3);                                                /* MOV r11, SP */
      half(0xb400 | list);
      half(0x4668);                                                    /* MOV r0, SP */
      half(0x6801);                                                    /* LDR r1, [r0] */
      simple();
      half(0x46dd);                                                    /* MOV SP, r11 */
  }
}

/* Registers and flags over what blocks or raises: all of them are written behind it. */
static void kept(void) {
  uint32_t flags, high = between(8, 12);
  for (uint32_t k = 0; k < 4; k++) some(k);
  half(0x4680 | (high & 7) | random_below(4) << 3);
  if (!is_framed && one_in(3)) half(0x4686 | random_below(4) << 3);    /* MOV LR */
  uint32_t raises = one_in(2), skip = at_most(between(2, 20));
  some(2);
  some(3);
  if (one_in(4)) half(0x001a);                                         /* MOVS r2, r3 */
  if (raises) source(0, 0);
  if (raises) value(1, 0);
  else constant(1, between(1, 3));
  if (one_in(2)) half(0x429a);                                         /* CMP r2, r3 */
  else half(0x18d3 | random_below(2) << 9);                            /* ADDS, SUBS r3, r2, r3 */
  if (!raises) half(0x4608);                                           /* MOV r0, r1 */
  service(raises ? 23 : 2);
  for (uint32_t k = random_below(4); k > 0; k--) {
    flags = random_below(14);
    half(0xd000 | flags << 8);
    service(12);
  }
  half(0x4600 | high << 3);
  service(12);
  half(0x4600 | between(1, 14) << 3);
  service(12);
  end_skip(skip);
}

/* Words on the stack over what blocks or raises: their sum is written behind it. */
static void tower(void) {
  if (loops == 3) return;
  uint32_t reg = 4 + (uint32_t)loops++, times = one_in(8) ? between(60, 250) : one_in(3) ? between(10, 60) : between(2, 10), top;
  some(0);
  for (uint32_t k = 1; k < 4; k++) half(0x2000 | k << 8 | random_below(256));
  constant(reg, times);
  top = here;
  half(0x1840);                                                        /* ADDS r0, r0, r1 */
  half(0xb40f);
  half(0x3801 | reg << 8);
  back_to(top, 1);
  simple();
  half(0x2000);
  constant(reg, times);
  top = here;
  half(0x0040);                                                        /* LSLS r0, r0, #1 */
  half(0xbc02);
  half(0x1840);
  half(0xbc0e);
  half(0x1840);
  half(0x1880);
  half(0x3801 | reg << 8);
  back_to(top, 1);
  service(12);
  loops--;
}

static void loop(void) {
  if (loops == 3) return;
  uint32_t reg = 4 + (uint32_t)loops++, top;
  constant(reg, one_in(6) ? between(5, 40) : between(1, 6));
  top = here;
  body((int)between(1, 4));
  put_pool(1);
  half(0x3801 | reg << 8);
  back_to(top, 1);
  loops--;
}

static void test(void) {
  uint32_t skip;
  some(0);
  if (one_in(2)) half(0x2800 | random_below(256));
  else some(1), half(0x4288);
  skip = skip_unless(random_below(14));
  body((int)between(1, 3));
  end_skip(skip);
}

static void guarded(void) {
  uint32_t skip = at_most(one_in(4) ? between(20, 60) : between(1, 6));
  body((int)between(1, 3));
  end_skip(skip);
}

static void call_some(void) {
  if (call_count > 250) return;
  if (in_called) {
    uint32_t skip = at_most(one_in(3) ? between(50, 250) : between(3, 20));
    call(FUNCTIONS + (int)random_below(CALLED));
    end_skip(skip);
  } else {
    call(FUNCTIONS + (int)random_below(CALLED));
  }
}

static void wait_some(void) {
  source(0, 1);
  value(1, 1);
  service(3);
}

static void spawn_some(void) {
  uint32_t skip = at_most(between(1, 4));
  code_address(0);
  service(4);
  end_skip(skip);
}

static void listen_to(uint32_t mode) {
  code_address(2);
  source(0, 1);
  value(1, 1);
  if (mode == 16 && one_in(2)) {
    service(5);
  } else {
    constant(3, mode);
    service(22);
  }
}

static uint32_t some_mode(void) {
  static const uint32_t modes[] = { 8, 8, 16, 16, 32, 32, 0, 64 };
  return one_in(20) ? any_word() : modes[random_below(8)];
}

static void listen_some(void) {
  uint32_t skip = at_most(between(1, 3));
  listen_to(some_mode());
  end_skip(skip);
}

static void raise_some(void) {
  uint32_t skip = at_most(between(2, 30));
  source(0, 0);
  value(1, 0);
  service(6);
  end_skip(skip);
}

static void raise_at_once(void) {
  uint32_t skip = at_most(one_in(3) ? between(20, 60) : between(2, 12)), keeps = random_below(3);
  if (keeps == 0) half(0xb40f);
  source(0, 0);
  value(1, 0);
  service(23);
  if (keeps == 0) {
    half(0xbc0f);
    service(12);
  }
  end_skip(skip);
}

static void new_array(void) {
  uint32_t skip = at_most(between(1, 4)), items = one_in(2) ? random_below(10) : 0;
  constant(0, 4 + items);
  service(18);
  set_global(0, ARRAYS + random_below(4));
  if (items) {
    constant(1, items);
    half(0x6081);                                                      /* STR r1, [r0, #8] */
    constant(1, random_below(items + 1));
    half(0x6041);
    half(0x1c01);
    half(0x3110);
    half(0x60c1);
  }
  end_skip(skip);
}

static void push_some(void) {
  get_global(0, ARRAYS + random_below(4));
  if (!risk || !one_in(10)) {
    half(0x2800);
    uint32_t skip = skip_unless(1);
    some(1);
    service(19);
    if (one_in(2)) {
      half(0x6841);                                                    /* LDR r1, [r0, #4] */
      half(0x0008);
      service(12);
    }
    end_skip(skip);
  } else {
    some(1);
    service(19);
  }
}

/* An array whose items may stand over its own header, in new words; what stands in them is written behind the pushes. */
static void odd_array(void) {
  uint32_t skip = at_most(between(1, 2)), room = random_below(8), from = random_below(13 - room), length = random_below(room + 1);
  if (risk && one_in(8)) from = between(0, 30), length = random_below(room + 3);
  constant(0, 12);
  service(18);
  set_global(0, ARRAYS + random_below(4));
  half(0x1c03);
  constant(1, room);
  half(0x6081);
  constant(1, length);
  half(0x6041);
  half(0x1c01);
  half(0x3100 | 4 * from);
  if (risk && one_in(30)) half(0x3102);
  half(0x60c1);
  for (uint32_t k = between(1, 3); k > 0; k--) {
    half(0x1c18);
    some(1);
    service(19);
  }
  half(0x68da);                                                        /* LDR r2, [r3, #12] */
  for (uint32_t k = 0; k < 18; k++) {
    half(k < 12 ? 0x6818 | k << 6 : 0x6810 | (k - 12) << 6);
    service(12);
  }
  end_skip(skip);
}

static void allocate(void) {
  uint32_t skip = at_most(between(1, 3));
  constant(0, one_in(12) ? any_word() : one_in(4) ? between(200, 3000) : risk && one_in(20) ? 0 : between(1, 40));
  service(18);
  service(12);
  end_skip(skip);
}

/* An instruction that is likely to stop the run. */
static void trouble(void) {
  switch (random_below(16)) {
    case 0: half(0xde00 | random_below(256)); break;
    case 1: half(0xbe00 | random_below(256)); break;
    case 2: half(0x1c78); half(0x6800); break;                         /* LDR r0, [r7 + 1] */
    case 3: constant(0, one_in(2) ? FLASH : any_word()); half(0x6800); break;
    case 4: constant(1, random_below(4000) * 4); half(0x6008); break;  /* a store to flash */
    case 5: constant(0, one_in(3) ? FLASH - 1 - random_below(6) : random_below(300) * 2); half(0x4700 | random_below(2) << 7); break;
    case 6: constant(0, RAM + 1 + 2 * random_below(100)); half(0x4700); break;
    case 7: constant(0, between(900, 1100) * 4); half(0x4240); half(0x4485); break;  /* ADD SP, r0 */
    case 8: half(0xb000 | between(1, 127)); break;
    case 9: half(0x4669); constant(2, random_below(40) * 4); half(0x5088); break;    /* STR r0, [SP + r2] */
    case 10: service(between(24, 255)); break;
    case 11: load_word(0, WORDS, random_below((uint32_t)texts + 2)); service(one_in(2) ? 13 : 16); break;
    case 12: some(0); service(one_in(2) ? 13 : 19); break;
    case 13: constant(0, 0); service(between(0, 3) ? 18 : 13); break;
    case 14: constant(0, some_number()); service(one_in(2) ? 18 : 19); break;
    default: half(random_below(0x10000));
  }
}

/* Loads of words that nothing of this fiber has written. */
static void free_words(void) {
  switch (random_below(3)) {
    case 0:
      half(0xb080 | between(1, 4));
      half(0x9800);
      break;
    case 1:
      half(0x4668);
      constant(1, 4 * between(1, 30));
      half(0x1a40);                                                    /* SUBS r0, r0, r1 */
      half(0x6800);
      break;
    default: half(0x9800 | between(0, 40));
  }
  service(12);
}

static void ending(void) {
  some(0);
  half(0x2800 | random_below(100));
  uint32_t skip = skip_unless(random_below(14));
  if (one_in(3)) some(0), service(1);
  else if (one_in(2)) trouble();
  else service(0);
  end_skip(skip);
}

static void deep(void) {
  if (loops == 3) return;
  uint32_t reg = 4 + (uint32_t)loops, top;
  constant(reg, one_in(4) ? between(20, 255) : between(2, 40));
  top = here;
  half(0xb400 | between(1, 15));
  half(0x3801 | reg << 8);
  back_to(top, 1);
}

static void idiom(void) {
  switch (random_below(45)) {
    case 0: case 1: case 2: case 3: say_number(); break;
    case 4: case 5: picture(); break;
    case 6: case 7: speak(); break;
    case 8: compute(); break;
    case 9: case 10: memory(); break;
    case 11: case 12: case 13: frame(); break;
    case 14: case 15: loop(); break;
    case 16: test(); break;
    case 17: guarded(); break;
    case 18: call_some(); break;
    case 19: case 20: case 21: pause_some(); break;
    case 22: case 23: wait_some(); break;
    case 24: case 25: spawn_some(); break;
    case 26: case 27: listen_some(); break;
    case 28: case 29: case 30: raise_some(); break;
    case 31: case 32: case 33: raise_at_once(); break;
    case 34: new_array(); break;
    case 35: case 36: push_some(); break;
    case 37: if (one_in(2)) allocate(); else high_registers(); break;
    case 38: if (risk) ending(); break;
    case 39: case 40: kept(); break;
    case 41: case 42: tower(); break;
    case 43: odd_array(); break;
    default:
      if (risk && one_in(8)) trouble();
      else if (risk && one_in(40)) free_words();
      else if (!is_framed && one_in(20)) deep();
  }
}

static void body(int count) {
  for (int k = 0; k < count && here < room_left; k++) {
    idiom();
    put_far_pool();
  }
}

static void globals_address(void) {
  half(0x2720);
  half(0x063f);
}

/* A loop around a raise, a listen or a spawn, which the profiles are made of. */
static uint32_t begin_loop(uint32_t times) {
  constant(6, times);
  return here;
}

static void end_loop(uint32_t top) {
  put_pool(1);
  half(0x3e01);
  back_to(top, 1);
}

static void raises(uint32_t number, uint32_t times) {
  uint32_t top = begin_loop(times);
  constant(0, sources[0]);
  half(one_in(2) ? 0x1c31 : 0x2100 | values[0]);                       /* the loop's count or a fixed value */
  service(number);
  if (one_in(4)) service(12);
  end_loop(top);
}

static void listens_to(uint32_t heard, uint32_t times, uint32_t mode, uint32_t code) {
  uint32_t top = begin_loop(times);
  load_word(2, CODE, code << 1 | 1);
  constant(0, heard);
  constant(1, one_in(2) ? values[0] : 0);
  constant(3, mode);
  service(22);
  end_loop(top);
}

static void listens(uint32_t times, uint32_t mode, uint32_t code) { listens_to(sources[0], times, mode, code); }

static void spawns(uint32_t times) {
  uint32_t top = begin_loop(times);
  load_word(0, CODE, any_function() << 1 | 1);
  service(4);
  end_loop(top);
}

/* What main does first. */
static void beginning(void) {
  switch (profile) {
    case SEATS:
      listens(between(1, 3), some_mode(), 1);
      spawns(between(20, 25));
      raises(one_in(2) ? 6 : 23, between(1, 3));
      break;
    case LISTENERS:
      listens(between(28, 33), some_mode(), 1);
      if (one_in(2)) listen_to(some_mode());
      raises(one_in(2) ? 6 : 23, between(1, 4));
      break;
    case NEST:
      if (one_in(2)) listens_to(sources[1], between(1, 2), one_in(2) ? some_mode() : 16, any_function());
      listens(between(1, 2), one_in(4) ? some_mode() : 8, 1);
      raises(23, between(1, 3));
      break;
    case QUEUE: listens(between(1, 3), some_mode(), 1); raises(6, between(28, 40)); break;
    case HOLD: listens(between(1, 2), one_in(3) ? some_mode() : 16, 1); raises(one_in(2) ? 6 : 23, between(8, 16)); break;
    case TIMES: spawns(between(4, 16)); break;
    default: break;
  }
}

static void fill(void) {
  uint32_t top, first = between(1, 2815);
  if (one_in(3)) {
    constant(0, first);
    service(18);
    constant(0, 2816 - first + (one_in(3) ? 1 : 0));
    service(18);
    service(12);
    return;
  }
  constant(0, 4);
  service(18);
  set_global(0, ARRAYS);
  top = begin_loop(between(1, 255));
  half(0x2505);
  uint32_t inner = here;
  get_global(0, ARRAYS);
  half(one_in(2) ? 0x1c31 : 0x1c29);
  service(19);
  half(0x3d01);
  back_to(inner, 1);
  end_loop(top);
  get_global(0, ARRAYS);
  half(0x6840);
  service(12);
}

/* What the first handler of a profile does first. */
static void handler_beginning(void) {
  uint32_t skip;
  if (one_in(2)) service(8), service(12);
  if (risk && one_in(25)) half(0x9000 | random_below(4) << 8 | between(is_framed ? 8 : 0, 20));  /* a store above the base, or at it */
  if (!is_framed && one_in(3)) half(0xb400 | between(1, 255));
  switch (profile) {
    case NEST:
      if (one_in(2)) {
        constant(0, sources[1]);
        constant(1, values[0]);
        service(23);
      }
      skip = at_most(one_in(3) ? between(30, 33) : between(26, 40));
      if (!is_framed && one_in(3)) half(0xb500 | between(0, 15));
      constant(0, sources[0]);
      constant(1, values[0]);
      service(23);
      service(12);
      end_skip(skip);
      if (one_in(3)) pause_some();
      break;
    case SEATS: case HOLD: case TIMES: if (one_in(2)) pause_some(); else wait_some(); break;
    case QUEUE: case LISTENERS: if (one_in(3)) pause_some(); break;
    default: break;
  }
}

static void function(int number) {
  in_called = number >= FUNCTIONS;
  loops = 0;
  if (here & 2 && one_in(2)) half(0xbf00);
  function_at[number] = here;
  room_left = here + between(60, number ? 500 : 900);
  is_framed = in_called || one_in(3);
  if (!in_called && one_in(5)) {
    for (uint32_t k = random_below(4); k > 0; k--) {
      half(0xd000 | random_below(14) << 8);
      service(12);
    }
    for (uint32_t k = between(1, 14); k > 0; k--) {
      half(0x4600 | random_below(15) << 3);
      service(12);
    }
  }
  if (!in_called) globals_address();
  uint32_t list = in_called ? 0x70 : between(0, 255);
  if (is_framed) half(0xb500 | list);
  if (number == 0) beginning();
  if (number == 0 && profile == FILL) fill();
  if (number && !in_called) {
    if (number == 1 || one_in(3)) handler_beginning();
  }
  if (profile == DEEP && in_called) call_some();
  if (number == 0) {
    for (uint32_t k = random_below(4); k > 0; k--) listen_to(some_mode());
    for (uint32_t k = random_below(3); k > 0; k--) code_address(0), service(4);
  }
  body((int)between(in_called ? 1 : 2, in_called ? 4 : number ? 8 : 14));
  if (is_framed) half(0xbd00 | list);
  else if (one_in(5)) half(0x4770);
  else service(0);
  put_pool(0);
}

/* Halfwords by chance that mostly go on. */
static uint32_t likely(void) {
  uint32_t x = any_word();
  switch (random_below(22)) {
    case 0: case 1: case 2: return 0xdf00 | (x % 40 == 0 ? x >> 8 & 255 : x % 24);
    case 3: return 0xb400 | (x & 0x1ff);
    case 4: return 0xbc00 | (x & 0xff);
    case 5: return 0x9000 | (x & 0xf07);
    case 6: return 0xd000 | (x % 14) << 8 | (x >> 8 & 7);
    case 7: return 0x4400 | (x & 0x27f);
    case 8: case 9: return 0x2000 | (x & 0x300) | (17 + 2 * (x >> 10 & 31));
    case 10: return 0x2000 | (x & 0x300) | (x >> 10 & 7);
    case 11: return 0xb200 | (x & 0xff);
    case 12: return x & 0xffff;
    case 13: return 0x4600 | (x & 0x7f);
    default: return x % 0x4400;
  }
}

static void halfwords(void) {
  for (uint32_t k = between(8, 90); k > 0; k--) half(profile == NOISE ? random_below(0x10000) : one_in(6) ? 0xdf00 | random_below(24) : likely());
  for (int k = 0; k < functions; k++) function_at[k] = 16 + 2 * random_below((here - 16) / 2);
}

static void put_text(uint32_t place, uint32_t length) {
  text_place[place] = here;
  put_word(length);
  for (uint32_t k = 0; k < (length < 40 ? length : 40); k++) it->bytes[here++] = (uint8_t)(one_in(10) ? random_below(256) : between(32, 126));
  while (here & 3) it->bytes[here++] = 0;
}

/* Texts, whole but for the last two: one is empty, one may end where the image or the flash does. */
static void put_texts(void) {
  while (here & 3) half(0);
  for (uint32_t k = 0; k < (uint32_t)texts; k++) put_text(k, k == 1 ? 0 : between(1, 12));
  half(random_below(0x10000));                                         /* what would be a text, but for its place */
  half(between(1, 12));
  half(0);
  half(0x4241);
  uint32_t odd_text = here - 6;
  it->low = it->far = it->length = here;
  if (one_in(3)) {
    text_place[0] = here;
    put_word(between(1, 40));                                          /* past the image flash has 0xFF */
    it->low = it->far = it->length = here;
  }
  text_place[texts] = odd_text;
  text_place[texts + 1] = one_in(2) ? RAM + 4 * random_below(4000) : 16 + 4 * random_below(20);
  if (one_in(40)) {
    static const uint32_t lengths[] = { 16384, 16383, 16385, 2000, 0xffffffff, 0x80000000 };
    uint32_t length = lengths[random_below(6)];
    text_place[length > 16384 ? (uint32_t)texts : 0] = here;
    put_word(length);
    it->low = it->far = it->length = here;
  } else if (one_in(20)) {
    uint32_t room = between(0, 30), whole = random_below(3);
    it->far = here = FLASH - 4 - 4 * room;
    text_place[whole ? 0 : texts] = here;
    put_word(4 * room + (whole ? 0 : 1) - (whole && room ? random_below(2) : 0));
    it->length = here;
  }
}

static void put_head(void) {
  static const uint32_t bases[] = { 0x20004000, 0x20003ffc, 0x20003040, 0x20003000, 0x20003400, 0x20003f80 };
  uint32_t base = one_in(12) ? bases[random_below(6)] : 0x20003f80, odd = one_in(150) ? 0 : 1;
  if (one_in(150)) base = one_in(2) ? any_word() : 0x20002ffe + random_below(0x1010);
  here = 0;
  put_word(base);
  put_word(function_at[0] + odd);
  put_word(one_in(60) ? any_word() : 0x0d);
  set_half(12, 0xdf00);
  set_half(14, 0xbf00);
}

void make(uint64_t number, uint64_t salt, image *to, script *events) {
  begin_image(to, (salt << 40) + number * 0x2545f4914f6cdd1du);
  in_called = 0;
  profile = (int)random_below(PROFILES + 6);
  if (profile >= PROFILES) profile = MIXED;
  risk = !one_in(3);
  for (int k = 0; k < 3; k++) {
    sources[k] = one_in(3) ? between(1, 2) : between(50, 53);
    values[k] = between(1, 4);
  }
  functions = (int)between(2, FUNCTIONS);
  texts = (int)between(2, MOST_TEXTS);
  if (profile >= HALFWORDS) {
    halfwords();
  } else {
    for (int k = 0; k < functions; k++) function(k);
    for (int k = 0; k < CALLED; k++) function(FUNCTIONS + k);
  }
  put_texts();
  put_head();
  settle();
  make_script(events, sources, values);
}
