#include "checks.h"
int sum(struct list *a) {
    int s = 0;
    for (int i = 0; i < LENGTH(a); i++) { s += ITEM(a, i); }
    return s;
}
void sort(struct list *a) {
    for (int i = 0; i < LENGTH(a); i++) {
        for (int j = 0; j + 1 < LENGTH(a) - i; j++) {
            if (ITEM(a, j) > ITEM(a, j + 1)) {
                int t = ITEM(a, j);
                ITEM(a, j) = ITEM(a, j + 1);
                ITEM(a, j + 1) = t;
            }
        }
    }
}
struct list *xs;
void program(void) {
    static const int items[] = {5, 3, 9, 1, 7, 2, 8, 6, 4, 0};
    xs = make(ARENA, 10);
    for (int i = 0; i < 10; i++) { xs->at[i] = items[i]; }
    sort(xs);
    write(sum(xs));
}
