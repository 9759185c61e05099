#include "checks.h"
int s;
void program(void) {
    s = 0;
    for (int i = 0; i < 1000; i++) { s = (s * 31 + i) & 65535; }
    write(s);
}
