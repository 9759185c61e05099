/* The services of the board for which `sts run-hex` runs an image, for C and for assembler (files `.S`). Service n is
   the instruction SVC n: arguments in R0 to R3, an answer in R0, and no other register changes. docs/MACHINE.md,
   "Services", says what each does and when it is refused. */
#ifndef STS_H
#define STS_H

#define STS_END 0
#define STS_PANIC 1
#define STS_PAUSE 2
#define STS_WAIT 3
#define STS_SPAWN 4
#define STS_LISTEN 5
#define STS_RAISE 6
#define STS_TIME 7
#define STS_EVENT_VALUE 8
#define STS_BUTTON 9
#define STS_PLOT 10
#define STS_SHOW 11
#define STS_WRITE_NUMBER 12
#define STS_WRITE_TEXT 13
#define STS_PIN 14
#define STS_RADIO 15
#define STS_TEXT_GLYPH 16
#define STS_NUMBER_GLYPH 17
#define STS_ALLOCATE 18
#define STS_PUSH 19
#define STS_DIVIDE 20
#define STS_REMAINDER 21
#define STS_LISTEN_BY 22
#define STS_RAISE_NOW 23

/* Sources of events, and the values of those of a button. */
#define STS_ANY 0
#define STS_BUTTON_A 1
#define STS_BUTTON_B 2
#define STS_DOWN 1
#define STS_UP 2
#define STS_CLICK 3
#define STS_LONG_CLICK 4
#define STS_BY_RADIO 200

/* How a light is plotted, and what a listener does with events that come while its handler is busy. */
#define STS_OFF 0
#define STS_ON 1
#define STS_TOGGLE 2
#define STS_REENTRANT 8
#define STS_HOLD 16
#define STS_DROP 32

#ifndef __ASSEMBLER__

/* A function that a fiber begins with. It may return: the fiber ends then. */
typedef void sts_handler(void);

/* A text for sts_write_text and sts_text_glyph, in flash: STS_TEXT(hello, "Hi\n"); sts_write_text(&hello); */
#define STS_TEXT(name, literal) \
    static const struct { int length; char bytes[sizeof(literal)]; } name __attribute__((aligned(4))) \
        = { sizeof(literal) - 1, literal }

/* A service with its arguments. Other fibers may run meanwhile, so what is in memory may be other than before. */
#define STS_SERVICE(number, a, b, c, d) __extension__({ \
    register int sts_r0 __asm__("r0") = (int)(a); \
    register int sts_r1 __asm__("r1") = (int)(b); \
    register int sts_r2 __asm__("r2") = (int)(c); \
    register int sts_r3 __asm__("r3") = (int)(d); \
    __asm__ volatile("svc %[service]" : "+r"(sts_r0) \
                     : [service] "i"(number), "r"(sts_r1), "r"(sts_r2), "r"(sts_r3) : "memory"); \
    sts_r0; })

__attribute__((noreturn)) static inline void sts_end(void)
{
    STS_SERVICE(STS_END, 0, 0, 0, 0);
    __builtin_unreachable();
}
__attribute__((noreturn)) static inline void sts_panic(int code)
{
    STS_SERVICE(STS_PANIC, code, 0, 0, 0);
    __builtin_unreachable();
}
static inline void sts_pause(int ms) { STS_SERVICE(STS_PAUSE, ms, 0, 0, 0); }
static inline void sts_wait(int source, int value) { STS_SERVICE(STS_WAIT, source, value, 0, 0); }
static inline void sts_spawn(sts_handler *begins) { STS_SERVICE(STS_SPAWN, begins, 0, 0, 0); }
static inline void sts_listen(int source, int value, sts_handler *hears)
{
    STS_SERVICE(STS_LISTEN, source, value, hears, 0);
}
static inline void sts_raise(int source, int value) { STS_SERVICE(STS_RAISE, source, value, 0, 0); }
static inline int sts_time(void) { return STS_SERVICE(STS_TIME, 0, 0, 0, 0); }
static inline int sts_event_value(void) { return STS_SERVICE(STS_EVENT_VALUE, 0, 0, 0, 0); }
static inline int sts_button(int source) { return STS_SERVICE(STS_BUTTON, source, 0, 0, 0); }
static inline void sts_plot(int column, int row, int mode) { STS_SERVICE(STS_PLOT, column, row, mode, 0); }
static inline void sts_show(int frame) { STS_SERVICE(STS_SHOW, frame, 0, 0, 0); }
static inline void sts_write_number(int number) { STS_SERVICE(STS_WRITE_NUMBER, number, 0, 0, 0); }
static inline void sts_write_text(const void *text) { STS_SERVICE(STS_WRITE_TEXT, text, 0, 0, 0); }
static inline void sts_pin(int pin, int high) { STS_SERVICE(STS_PIN, pin, high, 0, 0); }
static inline void sts_radio(int number) { STS_SERVICE(STS_RADIO, number, 0, 0, 0); }
static inline int sts_text_glyph(const void *text, int at) { return STS_SERVICE(STS_TEXT_GLYPH, text, at, 0, 0); }
static inline int sts_number_glyph(int number, int at) { return STS_SERVICE(STS_NUMBER_GLYPH, number, at, 0, 0); }
static inline void *sts_allocate(int words) { return (void *)STS_SERVICE(STS_ALLOCATE, words, 0, 0, 0); }
static inline void sts_push(void *array, int item) { STS_SERVICE(STS_PUSH, array, item, 0, 0); }
static inline int sts_divide(int number, int divisor) { return STS_SERVICE(STS_DIVIDE, number, divisor, 0, 0); }
static inline int sts_remainder(int number, int divisor) { return STS_SERVICE(STS_REMAINDER, number, divisor, 0, 0); }
static inline void sts_listen_by(int source, int value, sts_handler *hears, int mode)
{
    STS_SERVICE(STS_LISTEN_BY, source, value, hears, mode);
}
static inline void sts_raise_now(int source, int value) { STS_SERVICE(STS_RAISE_NOW, source, value, 0, 0); }

#endif
#endif
