/* Input from strangers for a built program. Preloaded into the program, this takes over before the program's first instruction: for each case it makes the words and the
   files, forks, and lets the child go on as the program with these words; then it judges the child's status, its output and the raw bytes at standard error. So a case
   costs a fork in place of an execution. fuzz.py builds it, lays the seeds into a folder, starts it there, and adds up what it prints.

   FUZZ in the environment is "KIND SEED FIRST COUNT KEPT WAY": the cases FIRST to FIRST + COUNT - 1 of a kind and a seed; KEPT is the folder for surprises; WAY is `exec`
   where each case is to be executed anew, which takes longer and gives the same. The program is started with eight words, in whose place the case's words are put. */
#define _GNU_SOURCE
#include <fcntl.h>
#include <stdbool.h>
#include <stdint.h>
#include <stdio.h>
#include <stdlib.h>
#include <string.h>
#include <sys/resource.h>
#include <sys/stat.h>
#include <sys/wait.h>
#include <unistd.h>

enum { MOST = 1 << 18, OUTPUT = 1 << 24, WORDS = 8, SECONDS = 2, KILOBYTES = 200 * 1024, KEPT_AT_MOST = 20 };

struct text {
    size_t length;
    unsigned char bytes[MOST];
};

/* What is mutated: the files text-0, text-1, .. of the folder, and so on; and the parts that are put in. */
struct seeds {
    size_t count;
    struct text **all;
};
static struct seeds texts, scripts, hexes, images, text_parts, script_parts, hex_parts;

/* A case: its words, its files `first` and `second`, where it has them, and the script that it names. */
struct one_case {
    const char *words[WORDS];
    const struct text *first, *second, *script;
};
static struct text first_file, second_file;
static char names_made[2][32];

/* Randomness: a sequence for each case of its own. */

static uint64_t state;

static uint64_t mixed(uint64_t it) {
    it = (it ^ it >> 30) * 0xBF58476D1CE4E5B9;
    it = (it ^ it >> 27) * 0x94D049BB133111EB;
    return it ^ it >> 31;
}

static size_t below(size_t bound) { return mixed(state += 0x9E3779B97F4A7C15) % bound; }

static uint64_t hash(uint64_t so_far, const void *bytes, size_t length) {
    for (const unsigned char *at = bytes; length; length--) so_far = (so_far ^ *at++) * 0x100000001B3;
    return so_far;
}

/* Changes of a text. */

static void insert(struct text *it, size_t at, const void *bytes, size_t length) {
    if (it->length + length > MOST) return;
    memmove(it->bytes + at + length, it->bytes + at, it->length - at);
    memcpy(it->bytes + at, bytes, length);
    it->length += length;
}

static void take_out(struct text *it, size_t at, size_t length) {
    if (length > it->length - at) length = it->length - at;
    memmove(it->bytes + at, it->bytes + at + length, it->length - at - length);
    it->length -= length;
}

static void append(struct text *it, const struct text *other) { insert(it, it->length, other->bytes, other->length); }

static struct text *one_of(const struct seeds *seeds) { return seeds->all[below(seeds->count)]; }

static bool is_word(unsigned char byte) {
    return (byte >= '0' && byte <= '9') || (byte >= 'A' && byte <= 'Z') || (byte >= 'a' && byte <= 'z') || byte == '_' || byte >= 0x80;
}

/* The word, or the single sign, that stands at a place. */
static void token_at(const struct text *it, size_t at, size_t *from, size_t *upto) {
    for (*from = at; *from && is_word(it->bytes[at]) && is_word(it->bytes[*from - 1]);) --*from;
    for (*upto = at + 1; *upto < it->length && is_word(it->bytes[at]) && is_word(it->bytes[*upto]);) ++*upto;
}

/* Puts a part in its place. */
static void exchange(struct text *it, size_t at, const struct text *part) {
    size_t from, upto;
    if (at == it->length) return;
    token_at(it, at, &from, &upto);
    take_out(it, from, upto - from);
    insert(it, from, part->bytes, part->length);
}

static void insert_random(struct text *it, size_t at) {
    unsigned char bytes[3];
    for (size_t i = 0; i < sizeof bytes; i++) bytes[i] = below(256);
    insert(it, at, bytes, 1 + below(sizeof bytes));
}

static void insert_copy(struct text *it, size_t at) {
    unsigned char bytes[512];
    size_t length = below(below(8) ? 40 : sizeof bytes);
    if (length > it->length - at) length = it->length - at;
    memcpy(bytes, it->bytes + at, length);
    insert(it, at, bytes, length);
}

/* Puts an entry of a list behind a bracket. */
static void insert_behind(struct text *it, unsigned char bracket, const struct text *part) {
    const unsigned char *const found = memchr(it->bytes, bracket, it->length);
    if (found && part->bytes[part->length - 1] == ',') insert(it, found + 1 - it->bytes, part->bytes, part->length);
}

static void insert_odd(struct text *it, size_t at) {
    static const char *const odd[] = {"-1", "4294967295", "1e9", "0", "2147483648", "[", "]", "{", "}", "(", ")", "null", "\r", "\n", "\"", "'", "/*", "//", "\\u0041", "\xEF\xBB\xBF"};
    const char *const one = odd[below(sizeof odd / sizeof *odd)];
    insert(it, at, one, strlen(one));
}

static void insert_often(struct text *it, size_t at, const struct text *part, size_t times) {
    for (; times; times--) insert(it, at, part->bytes, part->length);
}

static bool is_digit(unsigned char byte) { return byte >= '0' && byte <= '9'; }

/* Puts another number in place of a number, or a word or sign of the same text in place of one. */
static void change_token_at(struct text *it, size_t at) {
    static const char *const numbers[] = {"0", "1", "2", "3", "7", "8", "31", "255", "1000", "65536", "2147483647", "2147483648", "4294967295", "4294967296", "1073741824", "1073741825"};
    char made[512];
    size_t from, upto, other, behind;
    token_at(it, at, &from, &upto);
    if (is_digit(it->bytes[from])) {
        const int length = below(2) ? sprintf(made, "%s", numbers[below(sizeof numbers / sizeof *numbers)]) : sprintf(made, "%zu", below(60));
        take_out(it, from, upto - from);
        insert(it, from, made, length);
        return;
    }
    for (int tries = 0; tries < 20; tries++) {
        token_at(it, below(it->length), &other, &behind);
        if (is_word(it->bytes[other]) != is_word(it->bytes[from]) || behind - other >= sizeof made) continue;
        memcpy(made, it->bytes + other, behind - other);
        take_out(it, from, upto - from);
        insert(it, from, made, behind - other);
        return;
    }
}

/* Puts other numbers in place of some. */
static void change_numbers(struct text *it) {
    for (size_t times = 1 + below(4), tries = 200; times && tries; tries--) {
        const size_t at = below(it->length + 1);
        if (at < it->length && is_digit(it->bytes[at])) change_token_at(it, at), times--;
    }
}

/* Takes a line out, or puts a copy of it in front of another. */
static void change_line(struct text *it) {
    char made[512];
    size_t from = below(it->length + 1), upto = from, to = below(it->length + 1);
    while (from && it->bytes[from - 1] != '\n') from--;
    while (upto < it->length && it->bytes[upto++] != '\n') {}
    while (to && it->bytes[to - 1] != '\n') to--;
    if (upto - from > sizeof made) return;
    memcpy(made, it->bytes + from, upto - from);
    if (below(3)) insert(it, to, made, upto - from);
    else take_out(it, from, upto - from);
}

/* Small changes, after which a text often still has its form. */
static void change_little(struct text *it) {
    for (size_t times = 1 + below(4); times; times--) {
        const size_t at = below(it->length + 1);
        if (at == it->length || below(4) == 0) change_line(it);
        else if (is_word(it->bytes[at]) || below(8) == 0) change_token_at(it, at);
    }
}

/* Takes bytes and words out, doubles, exchanges or puts in some. */
static void mutate(struct text *it, const struct seeds *parts) {
    static const size_t most[] = {1, 1, 3, 12}, lengths[] = {1, 8, 64}, often[] = {4, 40, 400};
    for (size_t times = 1 + below(most[below(4)]); times; times--) {
        const size_t at = below(it->length + 1);
        switch (below(16)) {
        case 0: take_out(it, at, 1 + below(lengths[below(3)])); break;
        case 1: insert_random(it, at); break;
        case 2: case 3: insert_copy(it, at); break;
        case 4: if (at < it->length) it->bytes[at] = below(256); break;
        case 5: it->length = at; break;
        case 6: case 7: insert_often(it, at, one_of(parts), 1); break;
        case 8: insert_odd(it, at); break;
        case 9: insert_often(it, at, one_of(parts), below(often[below(3)])); break;
        default: exchange(it, at, one_of(parts));
        }
    }
}

/* HEX: records with right sums. */

struct record {
    unsigned char count, kind, bytes[255];
    unsigned address;
};
enum { RECORDS = 4096 };
static struct record records[RECORDS];
static size_t record_count;

static void hex_line(struct text *it, const struct record *record, const char *end) {
    char line[600];
    unsigned sum = record->count + (record->address >> 8 & 255) + (record->address & 255) + record->kind;
    int length = sprintf(line, ":%02X%04X%02X", record->count, record->address & 65535, record->kind);
    for (size_t i = 0; i < record->count; i++) {
        sum += record->bytes[i];
        length += sprintf(line + length, "%02X", record->bytes[i]);
    }
    length += sprintf(line + length, "%02X%s", -sum & 255, end);
    insert(it, it->length, line, length);
}

static void add_record(unsigned kind, unsigned address, const unsigned char *bytes, size_t count) {
    if (record_count == RECORDS) return;
    struct record *one = &records[record_count++];
    one->kind = kind, one->address = address, one->count = count;
    memcpy(one->bytes, bytes, count);
}

static void make_records(const struct text *image) {
    record_count = 0;
    for (size_t at = 0; at < image->length; at += 16) {
        if (at % 65536 == 0) add_record(4, 0, (const unsigned char[]){0, at >> 16}, 2);
        add_record(0, at & 65535, image->bytes + at, image->length - at < 16 ? image->length - at : 16);
    }
    add_record(1, 0, NULL, 0);
}

static void write_records(struct text *it, const char *end) {
    it->length = 0;
    for (size_t i = 0; i < record_count; i++) hex_line(it, &records[i], end);
}

/* Exchanges, doubles, drops and changes records. */
static void mutate_records(void) {
    for (size_t times = 1 + below(4); times && record_count; times--) {
        const size_t i = below(record_count), j = below(record_count);
        struct record *const one = &records[i], other = *one;
        switch (below(8)) {
        case 0: records[i] = records[j], records[j] = other; break;
        case 1: add_record(one->kind, one->address, one->bytes, one->count); break;
        case 2: *one = records[--record_count]; break;
        case 3: one->kind = below(7); break;
        case 4: one->address = below(2) ? below(65536) : 65536 - below(40); break;
        case 5: one->address += below(33) - 16; break;
        case 6: one->count = below(below(2) ? 20 : 256); break;
        default: for (size_t k = 0; k < one->count; k++) one->bytes[k] = below(256);
        }
    }
}

/* Changes halfwords of an image, or puts code by chance behind its three words. */
static void mutate_image(struct text *it) {
    static const size_t most[] = {2, 8, 40};
    if (below(4) == 0 && it->length >= 12) {
        it->length = 12 + 2 * (1 + below(200));
        for (size_t i = 12; i < it->length; i++) it->bytes[i] = below(256);
    }
    for (size_t times = 1 + below(most[below(3)]); times && it->length >= 2; times--) {
        const unsigned to[] = {below(65536), 0xDF00 + below(26), 0xB400 + below(4096), 0x4700 + below(256), below(0x4800), it->bytes[below(it->length)]};
        const size_t at = below(it->length / 2) * 2, which = below(6);
        it->bytes[at] = to[which] & 255, it->bytes[at + 1] = to[which] >> 8;
    }
}

/* Cases. */

static void say(struct one_case *it, const char *word) {
    size_t count = 0;
    while (it->words[count]) count++;
    it->words[count] = word, it->words[count + 1] = NULL;
}

static const char *name(size_t which, const char *form, size_t number) {
    snprintf(names_made[which], sizeof *names_made, form, number);
    return names_made[which];
}

static void say_budget(struct one_case *it) { say(it, "--budget"), say(it, "20000"); }

/* Names a script as it stands in the folder. */
static void say_script(struct one_case *it) {
    const size_t which = below(scripts.count);
    it->script = scripts.all[which];
    say(it, name(1, "script-%zu", which));
}

static void text_case(struct one_case *it) {
    first_file.length = 0;
    if (below(8) == 0) {
        for (size_t times = below(60); times; times--) append(&first_file, one_of(&text_parts)), append(&first_file, one_of(&text_parts));
    } else {
        append(&first_file, one_of(&texts));
        if (below(2)) change_little(&first_file);
        else mutate(&first_file, &text_parts);
        if (below(6) == 0) append(&first_file, one_of(&texts));
        for (size_t upto = below(400) ? 0 : below(MOST / 2); first_file.length < upto;) append(&first_file, one_of(&texts));
    }
    it->first = &first_file;
    const size_t way = below(4);
    say(it, way == 0 ? "check" : way == 1 ? "build" : "run"), say(it, "first");
    if (way == 3) say_script(it), say(it, "--stats");
    if (way >= 2) say_budget(it);
}

static void script_case(struct one_case *it) {
    second_file.length = 0;
    append(&second_file, one_of(&scripts));
    const struct text *const entry = one_of(&script_parts);
    for (size_t times = below(400) ? below(3) : below(8192); times; times--) insert_behind(&second_file, '[', entry);
    if (below(2)) change_numbers(&second_file);
    if (below(3) == 0) change_little(&second_file);
    else if (below(3) == 0) mutate(&second_file, &script_parts);
    it->second = it->script = &second_file;
    say(it, "run-hex"), say(it, name(0, "hex-%zu", below(hexes.count))), say(it, "second"), say_budget(it);
}

static void hex_case(struct one_case *it) {
    first_file.length = 0;
    if (below(2)) {
        make_records(one_of(&images));
        mutate_records();
        write_records(&first_file, below(3) ? "\n" : "\r\n");
    } else {
        append(&first_file, one_of(&hexes));
        if (below(2)) change_little(&first_file);
        else mutate(&first_file, &hex_parts);
    }
    it->first = &first_file;
    say(it, "run-hex"), say(it, "first"), say_budget(it);
}

static void image_case(struct one_case *it) {
    static struct text image;
    image.length = 0;
    append(&image, one_of(&images));
    mutate_image(&image);
    make_records(&image);
    write_records(&first_file, "\n");
    it->first = &first_file;
    say(it, "run-hex"), say(it, "first");
    if (below(2)) say_script(it);
    say_budget(it);
}

/* What an output says. */

static unsigned char output[OUTPUT], raw[OUTPUT];
static const unsigned char *at, *end;
static size_t output_length, raw_length;

static bool takes(const char *text) {
    const size_t length = strlen(text);
    if ((size_t)(end - at) < length || memcmp(at, text, length)) return false;
    at += length;
    return true;
}

/* A number in digits, without a zero in front, and at most that. */
static bool takes_number(uint64_t most, uint64_t *value) {
    const unsigned char *const from = at;
    for (*value = 0; at < end && *at >= '0' && *at <= '9' && at - from < 19; at++) *value = *value * 10 + (*at - '0');
    return at > from && (*from != '0' || at == from + 1) && *value <= most;
}

static int digit(const char *digits, size_t place) {
    const char *const found = at + place < end ? memchr(digits, at[place], 16) : NULL;
    return found ? found - digits : -1;
}

/* A byte in two digits, or -1. */
static int takes_byte(const char *digits) {
    const int high = digit(digits, 0), low = digit(digits, 1);
    if (high < 0 || low < 0) return -1;
    at += 2;
    return high * 16 + low;
}
static const char LOWER[] = "0123456789abcdef", UPPER[] = "0123456789ABCDEF";

/* Records in upper case with right sums, of which the last is the end. */
static bool is_hex_text(void) {
    for (at = output, end = output + output_length; takes(":");) {
        const unsigned char *const from = at;
        unsigned sum = 0;
        for (int byte; (byte = takes_byte(UPPER)) >= 0;) sum += byte;
        if (sum % 256 || !takes("\n")) return false;
        if (at == end) return at - from == 11 && !memcmp(from, "00000001FF", 10);
    }
    return false;
}

/* The raw bytes at the serial port so far, as lines say. */
static size_t said_raw;
static bool is_raw;

static bool takes_serial(void) {
    int byte = takes_byte(LOWER);
    if (byte < 0) return false;
    for (; byte >= 0; byte = takes_byte(LOWER), said_raw++) is_raw = is_raw && (said_raw >= raw_length || raw[said_raw] == byte);
    return takes("\n");
}

static bool takes_picture(unsigned *picture) {
    *picture = 0;
    for (int light = 0; light < 25; light++) {
        if (light && light % 5 == 0 && !takes("/")) return false;
        if (takes("#")) *picture |= 1u << light;
        else if (!takes(".")) return false;
    }
    return takes("\n");
}

/* The lines of a transcript but the last: clocks never fall, and a display shows something new. */
static bool takes_line(uint64_t *clock, unsigned *frame) {
    const unsigned char *const from = at;
    uint64_t now, number;
    unsigned picture;
    if (!takes_number(1 << 30, &now) || now < *clock) return at = from, false;
    *clock = now;
    if (takes(" display ")) {
        const bool is_new = takes_picture(&picture) && picture != *frame;
        *frame = picture;
        return is_new;
    }
    if (takes(" serial ")) return takes_serial();
    if (takes(" pin ")) return takes_number(20, &number) && (takes(" 0\n") || takes(" 1\n"));
    return takes(" radio ") && (takes("-") ? takes_number(2147483648, &number) && number : takes_number(2147483647, &number)) && takes("\n");
}

static bool takes_stats(void) {
    uint64_t number;
    return takes("stats spawned ") && takes_number(UINT64_MAX, &number) && number && takes(" blocked ") && takes_number(UINT64_MAX, &number) && takes(" words ")
        && takes_number(UINT64_MAX, &number) && takes(" seats ") && takes_number(24, &number) && takes("\n");
}

/* The line that closes a run of a status, and the code in it. */
static bool takes_closing(int status, uint64_t clock, uint64_t *code) {
    uint64_t now;
    if (!takes(status == 0 ? "end " : status == 3 ? "panic " : status == 4 ? "budget " : "fault ") || !takes_number(1 << 30, &now) || now < clock) return false;
    if (status == 0) return takes(" quiet\n") || takes(" script\n");
    if (status == 4) return takes("\n");
    if (!takes(" ") || !takes_number(status == 3 ? 255 : 8, code)) return false;
    if (status == 3) return takes("\n");
    return *code && takes(" ") && takes_byte(LOWER) >= 0 && takes_byte(LOWER) >= 0 && takes_byte(LOWER) >= 0 && takes_byte(LOWER) >= 0 && takes("\n");
}

static bool has(const struct one_case *it, const char *wanted) {
    for (const char *const *word = it->words; *word; word++)
        if (!strcmp(*word, wanted)) return true;
    return false;
}

/* Whether standard error has the bytes of the lines at the serial port: all of them, or the first where a script may unplug it. */
static bool is_raw_right(const struct one_case *it) {
    const bool may_be_unplugged = it->script && (memmem(it->script->bytes, it->script->length, "unplug", 6) || memchr(it->script->bytes, '\\', it->script->length));
    return is_raw && raw_length <= said_raw && (raw_length == said_raw || may_be_unplugged);
}

static bool is_run(const struct one_case *it, int status, uint64_t *code) {
    uint64_t clock = 0;
    unsigned frame = 0;
    at = output, end = output + output_length, said_raw = 0, is_raw = true;
    while (at < end && *at <= '9')
        if (!takes_line(&clock, &frame)) return false;
    return takes_closing(status, clock, code) && (!has(it, "--stats") || takes_stats()) && at == end && is_raw_right(it);
}

/* The line `WORD C`, with a code of at most that. */
static bool is_refusal(const char *word, uint64_t most, uint64_t *code) {
    at = output, end = output + output_length;
    return takes(word) && takes_number(most, code) && *code && takes("\n") && at == end;
}

static bool is_refused_text(const struct one_case *it, uint64_t *code) {
    uint64_t line, column;
    at = output, end = output + output_length;
    return takes("refused ") && takes_number(15, code) && *code && takes(" ") && takes_number(MOST, &line) && line && takes(" ") && takes_number(MOST, &column) && column && takes("\n")
        && at == end && line + column <= it->first->length + 2;
}

/* Whether a status and an output are of the form that the words have, and the code that is told. */
static bool is_right(const struct one_case *it, int status, uint64_t *code) {
    const char *const command = it->words[0];
    const bool takes_text = strcmp(command, "run-hex");
    *code = 0;
    if (status == 10) return takes_text && is_refused_text(it, code) && !raw_length;
    if (status == 11) return it->script && is_refusal("script refused ", 5, code) && !raw_length;
    if (status == 12) return !takes_text && is_refusal("image refused ", 7, code) && !raw_length;
    if (!strcmp(command, "check")) return status == 0 && output_length == 9 && !memcmp(output, "accepted\n", 9) && !raw_length;
    if (!strcmp(command, "build")) return status == 0 && is_hex_text() && !raw_length;
    return (status == 0 || status == 3 || status == 4 || (status == 13 && !takes_text)) && is_run(it, status, code);
}

/* Files and processes. */

static void stop(const char *why) {
    fprintf(stderr, "fuzz: %s\n", why);
    _exit(2);
}

static size_t read_whole(int file, unsigned char *bytes, size_t most) {
    const ssize_t length = pread(file, bytes, most, 0);
    if (length < 0 || (size_t)length == most) stop("a file can't be read, or is too long");
    return length;
}

static void empty(int file) {
    if (ftruncate(file, 0) || lseek(file, 0, SEEK_SET)) stop("a file can't be emptied");
}

static void write_whole(int file, const void *bytes, size_t length) {
    empty(file);
    if (pwrite(file, bytes, length, 0) != (ssize_t)length) stop("a file can't be written");
}

static int file_of(const char *name) {
    const int file = open(name, O_RDWR | O_CREAT | O_CLOEXEC, 0666);
    if (file < 0) stop(name);
    return file;
}

static void read_seeds(struct seeds *seeds, const char *form) {
    static struct text whole;
    char name[64];
    for (;; seeds->count++) {
        snprintf(name, sizeof name, form, seeds->count);
        const int file = open(name, O_RDONLY);
        if (file < 0) break;
        whole.length = read_whole(file, whole.bytes, MOST);
        seeds->all = realloc(seeds->all, (seeds->count + 1) * sizeof *seeds->all);
        seeds->all[seeds->count] = memcpy(malloc(sizeof whole.length + whole.length + 1), &whole, sizeof whole.length + whole.length + 1);
        close(file);
    }
    if (!seeds->count) stop("seeds are missing");
}

/* Lets the child be the program with the case's words: it is executed anew, or goes on from here with the words put where it will look for them. */
static void become(const struct one_case *it, char **words, bool executed, int out, int err) {
    setrlimit(RLIMIT_CPU, &(struct rlimit){SECONDS, SECONDS + 1});
    setrlimit(RLIMIT_FSIZE, &(struct rlimit){OUTPUT - 1, OUTPUT - 1});
    alarm(60);
    if (dup2(out, 1) < 0 || dup2(err, 2) < 0) _exit(99);
    size_t count = 0;
    for (; it->words[count]; count++) words[1 + count] = (char *)it->words[count];
    words[1 + count] = words[2 + count] = NULL;
    ((long *)words)[-1] = 1 + count;
    if (executed) execve("/proc/self/exe", words, words + 1 + count), _exit(99);
}

static void keep(const char *folder, const char *file, const void *bytes, size_t length) {
    char name[512];
    snprintf(name, sizeof name, "%s/%s", folder, file);
    const int kept = file_of(name);
    write_whole(kept, bytes, length);
    close(kept);
}

/* Keeps a surprise's words, files and output, and says where. */
static void surprise(const struct one_case *it, const char *folder, int status, long kilobytes) {
    char words[512];
    int length = 0;
    for (const char *const *word = it->words; *word; word++) length += snprintf(words + length, sizeof words - length, "%s ", *word);
    mkdir(folder, 0777);
    keep(folder, "words", words, length);
    if (it->first) keep(folder, "first", it->first->bytes, it->first->length);
    if (it->script) keep(folder, "script", it->script->bytes, it->script->length);
    keep(folder, "output", output, output_length);
    keep(folder, "raw", raw, raw_length);
    printf("surprise %s: status %d, %ld KB; its files are in %s\n", words, status, kilobytes, folder);
}

struct figures {
    unsigned long seen[256][256], surprises, digest;
    long longest, most;
};

/* Runs a case, judges it, and adds it to the figures. */
static void run_case(const struct one_case *it, const int files[4], bool executed, const char *kept, struct figures *figures, char **words, bool *is_child) {
    if (it->first) write_whole(files[0], it->first->bytes, it->first->length);
    if (it->second) write_whole(files[1], it->second->bytes, it->second->length);
    empty(files[2]), empty(files[3]);
    const pid_t child = fork();
    if (child < 0) stop("no process");
    if (child == 0) {
        become(it, words, executed, files[2], files[3]);
        *is_child = true;
        return;
    }
    int ended;
    struct rusage used;
    if (wait4(child, &ended, 0, &used) != child) stop("no child");
    output_length = read_whole(files[2], output, OUTPUT), raw_length = read_whole(files[3], raw, OUTPUT);
    const int status = WIFEXITED(ended) ? WEXITSTATUS(ended) : 128 + WTERMSIG(ended);
    const long time = (used.ru_utime.tv_sec + used.ru_stime.tv_sec) * 1000000 + used.ru_utime.tv_usec + used.ru_stime.tv_usec;
    uint64_t code = 0;
    if (!is_right(it, status, &code) || used.ru_maxrss > KILOBYTES) {
        if (figures->surprises++ < KEPT_AT_MOST) surprise(it, kept, status, used.ru_maxrss);
        code = 0;
    }
    figures->seen[status][code]++;
    figures->digest ^= mixed(hash(hash(state, &status, sizeof status), output, output_length));
    if (time > figures->longest) figures->longest = time;
    if (used.ru_maxrss > figures->most) figures->most = used.ru_maxrss;
}

static void tell(const struct figures *figures) {
    for (int status = 0; status < 256; status++)
        for (int code = 0; code < 256; code++)
            if (figures->seen[status][code]) printf("seen %d %d %lu\n", status, code, figures->seen[status][code]);
    printf("figures %ld %ld %lu %lu\n", figures->longest, figures->most, figures->surprises, figures->digest);
    fflush(stdout);
}

__attribute__((constructor)) static void fuzz(int count_of_words, char **words) {
    const char *const order = getenv("FUZZ");
    char kind[16], seed[64], kept[256], way[16], sequence[128], folder[400];
    unsigned long first, count;
    if (!order || count_of_words < WORDS || sscanf(order, "%15s %63s %lu %lu %255s %15s", kind, seed, &first, &count, kept, way) != 6) stop("it is started by fuzz.py");
    read_seeds(&texts, "text-%zu"), read_seeds(&scripts, "script-%zu"), read_seeds(&hexes, "hex-%zu"), read_seeds(&images, "image-%zu");
    read_seeds(&text_parts, "text-part-%zu"), read_seeds(&script_parts, "script-part-%zu"), read_seeds(&hex_parts, "hex-part-%zu");
    const int files[4] = {file_of("first"), file_of("second"), file_of("output"), file_of("raw")};
    static struct figures figures;
    for (unsigned long number = first; number < first + count; number++) {
        struct one_case it = {{NULL}, NULL, NULL, NULL};
        bool is_child = false;
        state = hash(0xCBF29CE484222325, sequence, snprintf(sequence, sizeof sequence, "%s %s %lu", kind, seed, number));
        (*kind == 't' ? text_case : *kind == 's' ? script_case : *kind == 'h' ? hex_case : image_case)(&it);
        snprintf(folder, sizeof folder, "%s/%s-%s-%lu", kept, kind, seed, number);
        run_case(&it, files, !strcmp(way, "exec"), folder, &figures, words, &is_child);
        if (is_child) return;
    }
    tell(&figures);
    _exit(0);
}
