/* An emulation of the board with several fibers, written from ARM DDI 0419, docs/MACHINE.md, docs/WORLD.md, docs/FORMATS.md and
   docs/DECISIONS.md, to compare runs with. It is no part of the product. */
#include <stddef.h>
#include <stdint.h>

enum { UNDEFINED = 1, UNALIGNED, OUT_OF_MAP, NOT_THUMB, STACK_RANGE, ABOVE_BASE, BREAKPOINT, BAD_SERVICE };
enum { DONE = 0, PANIC = 3, BUDGET = 4, FAULT = 13 };
enum { DOWN, UP, RAISE, UNPLUG };

typedef struct {
  uint32_t at;
  int what;                   /* DOWN, UP, RAISE or UNPLUG */
  uint32_t first, second;     /* the button, 1 or 2; the source and the value; the port */
} entry;

typedef struct {
  uint32_t end;
  size_t count;
  entry entries[4096];
} script;

typedef struct {
  char *bytes;
  size_t length, room;
} text;

/* What is counted of a run, beside its services. */
#define COUNTS(X)                                                                                                                         \
  X(END_QUIET, "end: quiet") X(END_SCRIPT, "end: script") X(END_BUDGET, "end: budget")                                                    \
  X(PANIC_20, "end: panic 20") X(PANIC_101_SPAWN, "end: panic 101 at a spawn") X(PANIC_101_BLOCK, "end: panic 101 at a block")            \
  X(PANIC_103, "end: panic 103") X(PANIC_105, "end: panic 105") X(PANIC_106, "end: panic 106") X(PANIC_OWN, "end: panic by service 1")    \
  X(FAULT_1, "end: fault 1, Undefined") X(FAULT_2, "end: fault 2, Unaligned") X(FAULT_3, "end: fault 3, OutOfMap")                        \
  X(FAULT_4, "end: fault 4, NotThumb") X(FAULT_5, "end: fault 5, StackRange") X(FAULT_6, "end: fault 6, AboveBase")                       \
  X(FAULT_7, "end: fault 7, Breakpoint") X(FAULT_8, "end: fault 8, BadService")                                                           \
  X(BAD_BASE, "StackRange by word 0") X(BAD_MAIN, "NotThumb by word 1") X(BAD_CODE, "NotThumb by a service's code address")               \
  X(BAD_NUMBER, "BadService by its number") X(BAD_PLOT, "BadService by a plot's mode") X(BAD_TEXT, "BadService by a text")                \
  X(BAD_ARRAY, "BadService by an array") X(BAD_WORDS, "BadService by 0 words") X(BAD_FETCH, "OutOfMap by a fetch")                        \
  X(ABOVE_RAISED, "AboveBase over a raiser's words") X(RANGE_RAISED, "StackRange on top of a raiser")                                     \
  X(FAULT_LATER, "faults behind a move of the clock") X(FAULT_HANDLER, "faults in a handler")                                             \
  X(QUEUE_FULL, "events dropped by a full queue") X(BEGUN, "handlers begun by the queue") X(BEGUN_NOW, "handlers begun at once")          \
  X(SEVERAL, "events that began two handlers or more") X(HELD, "events held by a busy listener") X(LOST, "events lost by ten held")       \
  X(DROPPED, "events dropped by a busy listener") X(FURTHER, "further handlers of a busy listener") X(AGAIN, "handlers begun again")      \
  X(AGAIN_RAISED, "handlers begun again on a raiser's base") X(FORKED, "handlers' first blocks")                                          \
  X(FORKED_NESTED, "handlers' first blocks on top of a raiser") X(WOKEN, "waiters woken by the queue")                                    \
  X(WOKEN_NOW, "waiters woken at once") X(BOTH, "events that began a handler and woke a waiter")                                          \
  X(BLOCKED_WORDS, "blocks with words in the bank") X(BLOCKED_RAISED, "blocks with words on a raiser's base")                             \
  X(BLOCKED_DEEP, "blocks with more than 100 words") X(BLOCKED_DEEPEST, "blocks with more than 900 words") X(LONG_TEXTS, "texts of 1000 bytes or more") \
  X(WAKES, "pauses over") X(WAKES_TOGETHER, "moments with two wakes or more")          \
  X(WAKE_AND_ENTRY, "moments with a wake and an entry") X(RAISED_NONE, "raises at once that began none")                                  \
  X(CAME_BACK, "raisers that went on behind handlers") X(CAME_BACK_BLOCKED, "raisers that went on behind a handler that blocked")         \
  X(NEST_1, "raises at once, 1 suspended") X(NEST_2, "raises at once, 2 suspended") X(NEST_3, "raises at once, 3 to 8 suspended")         \
  X(NEST_9, "raises at once, 9 to 31 suspended") X(NEST_32, "raises at once, 32 suspended")                                               \
  X(FIBERS_1, "runs of 1 fiber at most") X(FIBERS_2, "runs of 2 to 4 fibers") X(FIBERS_5, "runs of 5 to 12 fibers")                       \
  X(FIBERS_13, "runs of 13 to 24 fibers") X(FIBERS_25, "runs of 25 fibers or more") X(ALL_SEATS, "runs in which all 24 seats were taken") \
  X(ALL_LISTENERS, "runs with 32 listeners") X(TEN_HELD, "listeners with ten held events")                                                \
  X(PRESSED, "buttons down") X(RELEASED, "buttons up, short") X(RELEASED_LATE, "buttons up, long") X(IDLE_BUTTON, "presses without effect") \
  X(SENT, "events from the script") X(UNPLUGGED, "unplugs") X(SHOWN, "pictures changed") X(SHOWN_SAME, "pictures not changed")            \
  X(PLOT_OUTSIDE, "plots outside") X(PIN_OUTSIDE, "pins outside") X(TEXTS, "texts written") X(EMPTY_TEXTS, "empty texts written")         \
  X(GLYPHS, "glyphs given") X(NO_GLYPH, "glyphs past the end") X(PUSHED, "pushes with room") X(GROWN, "pushes into new words")            \
  X(COPIED, "pushes that copied items") X(BUTTON_IS_DOWN, "buttons found down") X(CUT_NESTED, "cuts while a raiser is suspended")         \
  X(CUT_MOVED, "cuts whose last instruction moved the clock") X(CUT_BLOCKED, "cuts while a handler is blocked")

#define NAME_OF(name, words) name,
enum { COUNTS(NAME_OF) KINDS };
#undef NAME_OF

typedef struct {
  int status;                 /* what the command's status is to be */
  text said, raw;             /* the transcript, and the serial port's raw bytes while its device is there */
  uint32_t instructions;
  int free_words;             /* whether the run loaded a stack word that nothing had written, or one outside its fiber's bank */
  size_t free_from;           /* how much of the transcript stood before it did */
  uint32_t counts[KINDS], services[24];
} run_result;

/* Runs an image on a script for at most so many instructions. */
void emulate(const uint8_t *image, size_t length, const script *events, uint32_t budget, run_result *result);

/* What the core asks of the board. */
typedef struct fiber {
  uint32_t r[16], base, code;
  int n, z, c, v;
  int32_t value;              /* that of the latest event that started or woke the fiber */
  int listener;               /* -1 where it is no handler */
  int seated, blocked, suspended, is_over_raiser, had_blocker;
  int64_t wake;
  int32_t source, wanted;     /* what it waits for */
  uint8_t bank[0x1000], known[0x1000];
} fiber;

#define RAM 0x20000000u
#define ARENA 0x20000400u
#define STACK 0x20003000u
#define TOP 0x20004000u
#define FLASH 0x40000u

extern uint8_t shared_words[STACK - RAM];
extern fiber *self;

uint32_t flash_byte(uint32_t a);
uint32_t flash_word(uint32_t a);
_Noreturn void fault(int kind, uint32_t address);
void load_was_free(void);

/* One instruction of the fiber `self`. Gives -1, or the number of the service that it asks for; `instruction_at` is its address. */
int step(void);
extern uint32_t instruction_at;

/* Makes words that come into the bank as SP goes down, or go as it rises. */
void move_stack(uint32_t to);
void append(text *it, const char *form, ...);
