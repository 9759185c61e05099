#include "checks.h"
int at(struct list *a, int x, int y) { return ITEM(a, y * 5 + x); }
void life(struct list *a, struct list *b) {
    for (int y = 0; y < 5; y++) {
        for (int x = 0; x < 5; x++) {
            int n = 0;
            for (int dy = -1; dy <= 1; dy++) {
                for (int dx = -1; dx <= 1; dx++) {
                    int u = x + dx;
                    int v = y + dy;
                    if (u >= 0 && u < 5 && v >= 0 && v < 5 && (dx != 0 || dy != 0)) { n += at(a, u, v); }
                }
            }
            if (n == 3 || (n == 2 && at(a, x, y) == 1)) { ITEM(b, y * 5 + x) = 1; } else { ITEM(b, y * 5 + x) = 0; }
        }
    }
}
struct list *g, *h;
int s;
void program(void) {
    g = make(ARENA, 25);
    h = make(ARENA + 40, 25);
    g->at[2] = g->at[7] = g->at[12] = 1;
    for (int k = 0; k < 5; k++) {
        life(g, h);
        life(h, g);
    }
    s = 0;
    for (int i = 0; i < 25; i++) { s = s * 2 + ITEM(g, i); }
    write(s);
}
