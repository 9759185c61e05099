#include "checks.h"
int steps(int n) {
    int k = 0;
    while (n != 1) {
        if ((n & 1) == 0) { n = n >> 1; } else { n = 3 * n + 1; }
        k += 1;
    }
    return k;
}
int m;
void program(void) {
    m = 0;
    for (int i = 1; i < 60; i++) { m += steps(i); }
    write(m);
}
