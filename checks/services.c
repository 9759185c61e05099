/* Calls the services of examples/image/sts.h in turn. What it is to write is in checks/services.txt, by the rules of docs/MACHINE.md. */
#include "sts.h"

static int begins_with_seven = 7, begins_with_zero;
STS_TEXT(text, "Hi\n");

static void heard(void) { sts_write_number(sts_event_value()); }
static void beside(void)
{
    sts_wait(40, STS_ANY);
    sts_write_number(100 + sts_event_value());
    sts_end();
}

int main(void)
{
    sts_write_number(begins_with_seven++ + begins_with_zero);
    sts_write_number(begins_with_seven);
    sts_write_text(&text);
    sts_plot(4, 0, STS_ON);
    sts_show(1);
    sts_pin(3, 1);
    sts_radio(-5);
    sts_write_number(sts_divide(-7, 2));
    sts_write_number(sts_remainder(-7, 2));
    sts_write_number(sts_text_glyph(&text, 3));
    sts_write_number(sts_number_glyph(11, 0) == 14815428);
    sts_write_number(sts_button(STS_BUTTON_A));
    int *array = sts_allocate(4);
    array[1] = array[2] = array[3] = 0;
    sts_push(array, 11);
    sts_write_number(array[1]);
    sts_write_number(*(int *)array[3]);
    sts_listen(41, STS_ANY, heard);
    sts_listen_by(42, 3, heard, STS_DROP);
    sts_spawn(beside);
    sts_pause(10);
    sts_write_number(sts_time());
    sts_raise_now(41, 5);
    sts_raise(42, 3);
    sts_raise(42, 4);
    sts_raise(40, 6);
    sts_pause(10);
    sts_panic(300);
}
