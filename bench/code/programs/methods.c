#include "checks.h"
struct counter { int word, n, step; };
void __attribute__((noinline)) add(struct counter *t) { OF(t).n += OF(t).step; }
int __attribute__((noinline)) twice(struct counter *t, int k) { return k * 2 + OF(t).n; }
struct counter *c;
void program(void) {
    c = (struct counter *)ARENA;
    c->n = 0;
    c->step = 1;
    for (int i = 0; i < 200; i++) {
        add(c);
        if (OF(c).n * 7 == 0 || OF(c).n > 4) { OF(c).step = twice(c, i) & 3; }
    }
    write(OF(c).n);
}
