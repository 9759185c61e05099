/* What examples/counter.ts does, in C: button A counts up, button B begins anew. */
#include "sts.h"

static int count;
STS_TEXT(line_end, "\n");

static void show(int number)
{
    sts_write_number(number);
    sts_write_text(&line_end);
    for (int at = 0, glyph; (glyph = sts_number_glyph(number, at)) >= 0; at++) {
        sts_show(glyph);
        sts_pause(400);
    }
}

static void more(void) { show(++count); }
static void anew(void) { show(count = 0); }

int main(void)
{
    sts_listen(STS_BUTTON_A, STS_CLICK, more);
    sts_listen(STS_BUTTON_B, STS_CLICK, anew);
    return 0;
}
