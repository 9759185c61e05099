/* What the twins share: the language's tests of null and of indices, a list, and the services that they ask for. */
#define PANIC_INDEX 104
#define PANIC_NULL 105

struct list { int word; unsigned length; int room; int *at; };

void __attribute__((noinline)) panic(int code) {
    register int r0 asm("r0") = code;
    asm volatile("svc 1" ::"r"(r0));
    for (;;);
}

void __attribute__((noinline)) write(int n) {
    register int r0 asm("r0") = n;
    asm volatile("svc 12" ::"r"(r0));
}

/* an item of a list, the length of one, an object's fields */
#define ITEM(of, index) (*({ struct list *list_ = (of); unsigned index_ = (index); \
    if (!list_) panic(PANIC_NULL); if (index_ >= list_->length) panic(PANIC_INDEX); &list_->at[index_]; }))
#define LENGTH(of) ({ struct list *list_ = (of); if (!list_) panic(PANIC_NULL); (int)list_->length; })
#define OF(object) (*({ __typeof__(object) object_ = (object); if (!object_) panic(PANIC_NULL); object_; }))

/* where the arena begins */
#define ARENA ((int *)0x20000400)

static struct list *make(int *place, unsigned length) {
    struct list *made = (struct list *)place;
    made->length = length;
    made->at = place + 4;
    return made;
}

void program(void);
void __attribute__((naked, section(".start"))) start(void) { asm("bl program\n svc 0"); }
