#include "checks.h"
int crc(int n) {
    int c = -1;
    for (int i = 0; i < n; i++) {
        c = c ^ i;
        for (int b = 0; b < 8; b++) {
            if ((c & 1) != 0) { c = ((unsigned)c >> 1) ^ 0xEDB88320; } else { c = (unsigned)c >> 1; }
        }
    }
    return ~c;
}
void program(void) { write(crc(64)); }
