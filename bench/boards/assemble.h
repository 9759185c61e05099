/* An assembler of images, and numbers by chance. */
#include "make.h"

enum { VALUE, CODE, WORDS };                    /* what a load's word is: a number, a code address, the address of a text */

extern image *it;
extern uint32_t here;                           /* where the next halfword stands */
extern uint32_t function_at[16], text_place[16];
extern int call_count;

void begin_image(image *to, uint64_t seed);
int one_in(uint32_t bound);
uint32_t between(uint32_t low, uint32_t high);
uint32_t any_word(void);

void half(uint32_t h);
void set_half(uint32_t a, uint32_t h);
void put_word(uint32_t w);

/* The words that loads wait for stand here; `over` says that a branch goes over them. */
void put_pool(int over);
/* The same where the first of those loads is far by now. */
void put_far_pool(void);
void load_word(uint32_t reg, int kind, uint32_t value);
void constant(uint32_t reg, uint32_t value);
void service(uint32_t number);
void get_global(uint32_t reg, uint32_t place);
void set_global(uint32_t reg, uint32_t place);

/* A test: what follows up to `end_skip` is left out where the condition doesn't hold. */
uint32_t skip_unless(uint32_t condition);
void end_skip(uint32_t at);
void back_to(uint32_t top, uint32_t condition);
void call(int to);

/* Puts in the words and calls that waited for the places of functions and texts. */
void settle(void);
