/* The board's world: activities, clock, events, listeners, services and the transcript. */
#include "board.h"
#include <setjmp.h>
#include <stdarg.h>
#include <stdio.h>
#include <stdlib.h>
#include <string.h>

#define ARENA_WORDS 2816
#define QUEUE 32
#define MOST_LISTENERS 32
#define SEATS 24

typedef struct { fiber **items; size_t count, room; } list;
typedef struct { int32_t source, value, mode; uint32_t code; int held; int32_t values[10]; } listener;

static const uint8_t *flash;
static size_t flash_length;
static run_result *out;
static const script *outside;
static size_t next_entry;
static uint32_t budget_left;
static int64_t now;
static list ready, sleepers, waiters;
static struct { int32_t source, value; } queue[QUEUE];
static int queued, listener_count, seats, living, most_living, took_all_seats, is_over, moved_clock, is_plugged;
static listener listeners[MOST_LISTENERS];
static int is_down[3];
static int64_t since[3];
static uint32_t frame, used;
static jmp_buf ended;

uint32_t flash_byte(uint32_t a) { return a < flash_length ? flash[a] : 0xff; }
uint32_t flash_word(uint32_t a) { return flash_byte(a) | flash_byte(a + 1) << 8 | flash_byte(a + 2) << 16 | flash_byte(a + 3) << 24; }

static void count(int kind) { out->counts[kind]++; }

static void append_bytes(text *it, const void *bytes, size_t length) {
  if (it->length + length + 1 > it->room) {
    it->room = 2 * (it->length + length + 1);
    it->bytes = realloc(it->bytes, it->room);
    if (!it->bytes) abort();
  }
  memcpy(it->bytes + it->length, bytes, length);
  it->length += length;
  it->bytes[it->length] = 0;
}

void append(text *it, const char *form, ...) {
  char line[128];
  va_list args;
  va_start(args, form);
  int length = vsnprintf(line, sizeof line, form, args);
  va_end(args);
  append_bytes(it, line, (size_t)length);
}

static void over(int status) {
  out->status = status;
  is_over = 1;
}

static int nested(void) {
  int all = 0;
  for (size_t k = 0; k < ready.count; k++) all += ready.items[k] != self && ready.items[k]->suspended;
  return all;
}

_Noreturn void fault(int kind, uint32_t address) {
  append(&out->said, "fault %lld %d %08x\n", (long long)now, kind, address);
  over(FAULT);
  count(FAULT_1 + kind - 1);
  if (now > 0) count(FAULT_LATER);
  if (self->listener >= 0) count(FAULT_HANDLER);
  if (kind == STACK_RANGE && (self->base & 3 || self->base < STACK || self->base > TOP)) count(BAD_BASE);
  else if (kind == STACK_RANGE && self->base != flash_word(0)) count(RANGE_RAISED);
  if (kind == ABOVE_BASE && self->base != flash_word(0)) count(ABOVE_RAISED);
  if (kind == NOT_THUMB && self->r[15] & 1) count(BAD_MAIN);
  if (kind == OUT_OF_MAP && self->r[15] >= FLASH) count(BAD_FETCH);
  longjmp(ended, 1);
}

_Noreturn static void panic(uint32_t code, int kind) {
  append(&out->said, "panic %lld %u\n", (long long)now, code);
  over(PANIC);
  count(kind);
  longjmp(ended, 1);
}

void load_was_free(void) {
  if (out->free_words) return;
  out->free_words = 1;
  out->free_from = out->said.length;
}

/* Lists of fibers. */
static void put_at(list *it, size_t place, fiber *one) {
  if (it->count == it->room) {
    it->room = it->room ? 2 * it->room : 64;
    it->items = realloc(it->items, it->room * sizeof *it->items);
    if (!it->items) abort();
  }
  memmove(it->items + place + 1, it->items + place, (it->count - place) * sizeof *it->items);
  it->items[place] = one;
  it->count++;
}

static void put_last(list *it, fiber *one) { put_at(it, it->count, one); }

static fiber *take_at(list *it, size_t place) {
  fiber *one = it->items[place];
  it->count--;
  memmove(it->items + place, it->items + place + 1, (it->count - place) * sizeof *it->items);
  return one;
}

/* A fiber begins at its code address, with nothing in its bank. */
static void begin(fiber *it) {
  memset(it->r, 0, sizeof it->r);
  it->n = it->z = it->c = it->v = 0;
  it->r[13] = it->base;
  it->r[14] = flash_word(8);
  it->r[15] = it->code - 1;
}

static fiber *new_fiber(uint32_t code, uint32_t base, int number, int32_t value) {
  fiber *it = calloc(1, sizeof *it);
  if (!it) abort();
  it->code = code;
  it->base = base;
  it->listener = number;
  it->value = value;
  begin(it);
  if (++living > most_living) most_living = living;
  return it;
}

static void take_seat(fiber *it, int kind) {
  if (seats == SEATS) panic(101, kind);
  if (++seats == SEATS) took_all_seats = 1;
  it->seated = 1;
}

/* Events. */
static void raise_event(int32_t source, int32_t value) {
  if (queued == QUEUE) {
    count(QUEUE_FULL);
    return;
  }
  queue[queued].source = source;
  queue[queued++].value = value;
}

static int matches(int32_t source, int32_t wanted, int32_t of, int32_t value) {
  return (source == 0 || source == of) && (wanted == 0 || wanted == value);
}

static int stands_in(const list *it, int number) {
  for (size_t k = 0; k < it->count; k++) {
    if (it->items[k]->listener == number) return 1;
  }
  return 0;
}

static int is_busy(int number) { return stands_in(&ready, number) || stands_in(&sleepers, number) || stands_in(&waiters, number); }

/* Puts the event's new handlers before the ready ones, in the order of registration, and gives how many they are. */
static size_t hear(int32_t source, int32_t value, uint32_t base, int kind) {
  size_t begun = 0;
  for (int k = 0; k < listener_count; k++) {
    listener *it = &listeners[k];
    if (!matches(it->source, it->value, source, value)) continue;
    if (is_busy(k)) {
      if (it->mode == 32) {
        count(DROPPED);
        continue;
      }
      if (it->mode != 8) {
        count(it->held == 10 ? LOST : HELD);
        if (it->held < 10) it->values[it->held++] = value;
        if (it->held == 10) count(TEN_HELD);
        continue;
      }
      count(FURTHER);
    }
    fiber *made = new_fiber(it->code, base, k, value);
    made->is_over_raiser = kind == BEGUN_NOW;
    put_at(&ready, begun++, made);
    count(kind);
  }
  if (begun > 1) count(SEVERAL);
  return begun;
}

static size_t wake_waiters(int32_t source, int32_t value, int kind) {
  size_t woken = 0;
  for (size_t k = 0; k < waiters.count;) {
    if (matches(waiters.items[k]->source, waiters.items[k]->wanted, source, value)) {
      fiber *it = take_at(&waiters, k);
      it->value = value;
      put_last(&ready, it);
      woken++;
      count(kind);
    } else {
      k++;
    }
  }
  return woken;
}

static int would_begin(int32_t source, int32_t value) {
  for (int k = 0; k < listener_count; k++) {
    if (matches(listeners[k].source, listeners[k].value, source, value) && (listeners[k].mode == 8 || !is_busy(k))) return 1;
  }
  return 0;
}

static void raise_now(int32_t source, int32_t value) {
  int suspended = nested();
  if (suspended == 32 && would_begin(source, value)) panic(106, PANIC_106);
  size_t begun = hear(source, value, self->r[13], BEGUN_NOW);
  size_t woken = wake_waiters(source, value, WOKEN_NOW);
  if (begun && woken) count(BOTH);
  if (!begun) {
    count(RAISED_NONE);
    return;
  }
  self->suspended = 1;
  self->had_blocker = 0;
  int depth = suspended + 1;
  count(depth == 1 ? NEST_1 : depth == 2 ? NEST_2 : depth < 9 ? NEST_3 : depth < 32 ? NEST_9 : NEST_32);
}

/* What comes from outside. */
static void arrive(const entry *it) {
  switch (it->what) {
    case DOWN:
      if (is_down[it->first]) {
        count(IDLE_BUTTON);
        break;
      }
      count(PRESSED);
      is_down[it->first] = 1;
      since[it->first] = now;
      raise_event((int32_t)it->first, 1);
      break;
    case UP: {
      if (!is_down[it->first]) {
        count(IDLE_BUTTON);
        break;
      }
      int is_short = now - since[it->first] < 1000;
      count(is_short ? RELEASED : RELEASED_LATE);
      is_down[it->first] = 0;
      raise_event((int32_t)it->first, 2);
      raise_event((int32_t)it->first, is_short ? 3 : 4);
      break;
    }
    case RAISE: count(SENT); raise_event((int32_t)it->first, (int32_t)it->second); break;
    default:
      count(UNPLUGGED);
      if (it->first == 1) is_plugged = 0;
  }
}

/* One move while nobody is ready. */
static void idle_move(void) {
  if (queued) {
    int32_t source = queue[0].source, value = queue[0].value;
    memmove(queue, queue + 1, (size_t)--queued * sizeof *queue);
    size_t begun = hear(source, value, flash_word(0), BEGUN);
    if (wake_waiters(source, value, WOKEN) && begun) count(BOTH);
    return;
  }
  int64_t due = -1;
  for (size_t k = 0; k < sleepers.count; k++) {
    if (due < 0 || sleepers.items[k]->wake < due) due = sleepers.items[k]->wake;
  }
  int has_entry = next_entry < outside->count;
  if (has_entry && (due < 0 || outside->entries[next_entry].at < due)) due = outside->entries[next_entry].at;
  if (due < 0) {
    append(&out->said, "end %lld quiet\n", (long long)now);
    count(END_QUIET);
    over(DONE);
    return;
  }
  if (due > outside->end) {
    now = outside->end;
    append(&out->said, "end %lld script\n", (long long)now);
    count(END_SCRIPT);
    over(DONE);
    return;
  }
  if (due > now) moved_clock = 1;
  now = due;
  size_t woken = 0;
  for (size_t k = 0; k < sleepers.count;) {
    if (sleepers.items[k]->wake <= now) {
      put_last(&ready, take_at(&sleepers, k));
      woken++;
      count(WAKES);
    } else {
      k++;
    }
  }
  if (woken > 1) count(WAKES_TOGETHER);
  if (woken && next_entry < outside->count && outside->entries[next_entry].at <= now) count(WAKE_AND_ENTRY);
  while (next_entry < outside->count && outside->entries[next_entry].at <= now) arrive(&outside->entries[next_entry++]);
}

/* What is seen. */
static void show(uint32_t picture) {
  if (picture == frame) {
    count(SHOWN_SAME);
    return;
  }
  count(SHOWN);
  frame = picture;
  append(&out->said, "%lld display ", (long long)now);
  for (int k = 0; k < 25; k++) append(&out->said, "%s%c", k && k % 5 == 0 ? "/" : "", frame >> k & 1 ? '#' : '.');
  append(&out->said, "\n");
}

static void write_bytes(const uint8_t *bytes, size_t length) {
  if (!length) return;
  append(&out->said, "%lld serial ", (long long)now);
  for (size_t k = 0; k < length; k++) append(&out->said, "%02x", bytes[k]);
  append(&out->said, "\n");
  if (is_plugged) append_bytes(&out->raw, bytes, length);
}

static void plot(int32_t x, int32_t y, uint32_t mode) {
  if (x < 0 || x > 4 || y < 0 || y > 4) {
    count(PLOT_OUTSIDE);
    return;
  }
  uint32_t light = 1u << (5 * y + x);
  show(mode == 0 ? frame & ~light : mode == 1 ? frame | light : frame ^ light);
}

_Noreturn static void bad_service(int kind) {
  count(kind);
  fault(BAD_SERVICE, instruction_at);
}

/* Fills in the text at an address and gives its length. */
static uint32_t text_at(uint32_t a, uint8_t *bytes) {
  if (a == 0) panic(105, PANIC_105);
  if (a & 3 || a >= FLASH) bad_service(BAD_TEXT);
  uint32_t length = flash_word(a);
  if (length > 16384 || a + 4 + length > FLASH) bad_service(BAD_TEXT);
  for (uint32_t k = 0; k < length; k++) bytes[k] = (uint8_t)flash_byte(a + 4 + k);
  return length;
}

uint32_t glyph_of(uint8_t byte);

static uint32_t glyph_at(const uint8_t *bytes, uint32_t length, uint32_t place) {
  count(place < length ? GLYPHS : NO_GLYPH);
  return place < length ? glyph_of(bytes[place]) : 0xffffffffu;
}

/* The arena. */
static uint32_t word_at(uint32_t a) {
  uint32_t w;
  memcpy(&w, shared_words + (a - RAM), 4);
  return w;
}

static void set_word(uint32_t a, uint32_t w) { memcpy(shared_words + (a - RAM), &w, 4); }

static uint32_t take_words(uint32_t words) {
  if (words > ARENA_WORDS - used) panic(20, PANIC_20);
  used += words;
  return ARENA + 4 * (used - words);
}

static int is_used(uint32_t a, uint64_t words) { return !(a & 3) && a >= ARENA && a + 4 * words <= ARENA + 4 * (uint64_t)used; }

static void push(uint32_t a, uint32_t value) {
  if (a == 0) panic(105, PANIC_105);
  if (!is_used(a, 4)) bad_service(BAD_ARRAY);
  uint32_t length = word_at(a + 4), room = word_at(a + 8), items = word_at(a + 12);
  if (length > room || (room && !is_used(items, room))) bad_service(BAD_ARRAY);
  if (length < room) {
    set_word(items + 4 * length, value);
    set_word(a + 4, length + 1);
    count(PUSHED);
    return;
  }
  uint32_t wider = 2 * room < 4 ? 4 : 2 * room, to = take_words(wider);
  for (uint32_t k = 0; k < room; k++) set_word(to + 4 * k, word_at(items + 4 * k));
  set_word(to + 4 * length, value);
  set_word(a + 4, length + 1);
  set_word(a + 8, wider);
  set_word(a + 12, to);
  count(GROWN);
  if (room) count(COPIED);
}

/* Services. */
static void block(list *where) {
  int was_blocked = self->blocked;
  if (!self->seated) take_seat(self, PANIC_101_BLOCK);
  self->blocked = 1;
  take_at(&ready, 0);
  put_last(where, self);
  if (self->listener >= 0 && !was_blocked) count(FORKED);
  if (self->listener >= 0 && !was_blocked && nested()) count(FORKED_NESTED);
  if (self->r[13] < self->base) count(BLOCKED_WORDS);
  if (self->r[13] < self->base && self->is_over_raiser) count(BLOCKED_RAISED);
  if (self->base - self->r[13] > 400) count(BLOCKED_DEEP);
  if (self->base - self->r[13] > 3600) count(BLOCKED_DEEPEST);
  for (size_t k = 0; k < ready.count; k++) ready.items[k]->had_blocker |= ready.items[k]->suspended;
}

static void end_fiber(void) {
  listener *it = self->listener >= 0 ? &listeners[self->listener] : 0;
  if (it && it->held) {
    self->value = it->values[0];
    memmove(it->values, it->values + 1, (size_t)--it->held * sizeof *it->values);
    begin(self);
    count(AGAIN);
    if (self->is_over_raiser) count(AGAIN_RAISED);
    return;
  }
  take_at(&ready, 0);
  seats -= self->seated;
  living--;
  free(self);
  self = 0;
}

static void listen(int32_t source, int32_t value, uint32_t code, int32_t mode) {
  if (!(code & 1)) count(BAD_CODE), fault(NOT_THUMB, instruction_at);
  if (listener_count == MOST_LISTENERS) panic(103, PANIC_103);
  listeners[listener_count++] = (listener){ .source = source, .value = value, .mode = mode, .code = code };
}

static void spawn(uint32_t code) {
  if (!(code & 1)) count(BAD_CODE), fault(NOT_THUMB, instruction_at);
  if (seats == SEATS) panic(101, PANIC_101_SPAWN);
  fiber *made = new_fiber(code, flash_word(0), -1, 0);
  take_seat(made, PANIC_101_SPAWN);
  put_last(&ready, made);
}

static void serve(int number) {
  static uint8_t bytes[16384 + 1];
  uint32_t *r = self->r;
  int32_t first = (int32_t)r[0], second = (int32_t)r[1];
  if (number > 23) bad_service(BAD_NUMBER);
  out->services[number]++;
  switch (number) {
    case 0: end_fiber(); break;
    case 1: panic(r[0] & 255, PANIC_OWN);
    case 2: self->wake = now + (first < 1 ? 1 : first); block(&sleepers); break;
    case 3: self->source = first; self->wanted = second; block(&waiters); break;
    case 4: spawn(r[0]); break;
    case 5: listen(first, second, r[2], 16); break;
    case 6: raise_event(first, second); break;
    case 7: r[0] = (uint32_t)now; break;
    case 8: r[0] = (uint32_t)self->value; break;
    case 9: r[0] = (first == 1 || first == 2) && is_down[first]; if (r[0]) count(BUTTON_IS_DOWN); break;
    case 10: if (r[2] > 2) bad_service(BAD_PLOT); plot(first, second, r[2]); break;
    case 11: show(r[0] & 0x1ffffff); break;
    case 12: write_bytes(bytes, (size_t)sprintf((char *)bytes, "%d", first)); break;
    case 13: {
      uint32_t length = text_at(r[0], bytes);
      count(length >= 1000 ? LONG_TEXTS : length ? TEXTS : EMPTY_TEXTS);
      write_bytes(bytes, length);
      break;
    }
    case 14:
      if (first < 0 || first > 20) count(PIN_OUTSIDE);
      else append(&out->said, "%lld pin %d %d\n", (long long)now, first, second != 0);
      break;
    case 15: append(&out->said, "%lld radio %d\n", (long long)now, first); break;
    case 16: {
      uint32_t length = text_at(r[0], bytes);
      r[0] = glyph_at(bytes, length, r[1]);
      break;
    }
    case 17: r[0] = glyph_at(bytes, (uint32_t)sprintf((char *)bytes, "%d", first), r[1]); break;
    case 18: if (!r[0]) bad_service(BAD_WORDS); r[0] = take_words(r[0]); break;
    case 19: push(r[0], r[1]); break;
    case 20: r[0] = second == 0 ? 0 : (uint32_t)((int64_t)first / second); break;
    case 21: r[0] = second == 0 ? 0 : (uint32_t)((int64_t)first % second); break;
    case 22: listen(first, second, r[2], (int32_t)r[3]); break;
    default: raise_now(first, second);
  }
}

static void start(void) {
  memset(shared_words, 0, sizeof shared_words);
  next_entry = 0;
  now = 0;
  queued = listener_count = seats = living = most_living = took_all_seats = is_over = 0;
  ready.count = sleepers.count = waiters.count = 0;
  memset(is_down, 0, sizeof is_down);
  frame = used = 0;
  is_plugged = 1;
  fiber *first = new_fiber(flash_word(4), flash_word(0), -1, 0);
  take_seat(first, PANIC_101_SPAWN);
  put_last(&ready, first);
}

static void turn(void) {
  self = ready.items[0];
  if (self->suspended) {
    count(CAME_BACK);
    if (self->had_blocker) count(CAME_BACK_BLOCKED);
  }
  self->suspended = 0;
  moved_clock = 0;
  out->instructions++;
  int number = step();
  if (number >= 0) serve(number);
  while (!is_over && !ready.count) idle_move();
}

static void close_list(list *it) {
  while (it->count) free(take_at(it, it->count - 1));
}

static void cut(void) {
  append(&out->said, "budget %lld\n", (long long)now);
  over(BUDGET);
  count(END_BUDGET);
  if (moved_clock) count(CUT_MOVED);
  self = 0;
  if (nested()) count(CUT_NESTED);
  for (size_t k = 0; k < sleepers.count + waiters.count; k++) {
    fiber *it = k < sleepers.count ? sleepers.items[k] : waiters.items[k - sleepers.count];
    if (it->listener >= 0) {
      count(CUT_BLOCKED);
      break;
    }
  }
}

void emulate(const uint8_t *image, size_t length, const script *events, uint32_t budget, run_result *result) {
  flash = image;
  flash_length = length;
  outside = events;
  out = result;
  out->said.length = out->raw.length = 0;
  out->instructions = 0;
  out->free_words = 0;
  out->free_from = 0;
  memset(out->counts, 0, sizeof out->counts);
  memset(out->services, 0, sizeof out->services);
  budget_left = budget;
  start();
  if (!setjmp(ended)) {
    while (!is_over && budget_left) {
      budget_left--;
      turn();
    }
    if (!is_over) cut();
  }
  count(most_living == 1 ? FIBERS_1 : most_living < 5 ? FIBERS_2 : most_living < 13 ? FIBERS_5 : most_living < 25 ? FIBERS_13 : FIBERS_25);
  if (took_all_seats) count(ALL_SEATS);
  if (listener_count == MOST_LISTENERS) count(ALL_LISTENERS);
  close_list(&ready);
  close_list(&sleepers);
  close_list(&waiters);
}
