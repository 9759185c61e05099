#include "checks.h"
int sieve(struct list *a, int n) {
    int k = 0;
    for (int i = 2; i < n; i++) {
        if (ITEM(a, i) == 0) {
            k += 1;
            for (int j = i + i; j < n; j += i) { ITEM(a, j) = 1; }
        }
    }
    return k;
}
struct list *xs;
void push(struct list *a, int v) { a->at[a->length++] = v; }
void program(void) {
    xs = make(ARENA, 0);
    for (int i = 0; i < 200; i++) { push(xs, 0); }
    write(sieve(xs, 200));
}
