/* Plays a trace of wheel calls (standard input) through juopmorin.h and writes the answers, one line for each call, as
 * `wheel_trace` does. docs/TRACES.md has the text format. */
#include "juopmorin.h"

#include <inttypes.h>
#include <stdio.h>
#include <stdlib.h>
#include <string.h>

enum {
    LONGEST = 256,    /* a line above this many bytes is no call */
    FIELDS_MOST = 5,  /* one more than any call has, its word included: such a line is no call */
    LENT_MOST = 4100, /* the most node records, and the most entries, that a trace may lend */
};

typedef struct {
    size_t count;
    char *at[FIELDS_MOST];
} fields;

static juop_wheel wheel;
static bool lent = false;

static void die(const char *what) {
    fprintf(stderr, "trace: %s\n", what);
    exit(2);
}

/* ---- fields: each answers whether it is one */

static bool number(const char *text, uint64_t *value) {
    uint64_t n = 0;
    if (*text == '\0') {
        return false;
    }
    for (; *text != '\0'; text++) {
        if (*text < '0' || *text > '9') {
            return false;
        }
        const uint64_t digit = (uint64_t)(*text - '0');
        if (n > (UINT64_MAX - digit) / 10) {
            return false;
        }
        n = n * 10 + digit;
    }
    *value = n;
    return true;
}

static bool generation(const char *text, uint32_t *value) {
    uint64_t n;
    if (!number(text, &n) || n > UINT32_MAX) {
        return false;
    }
    *value = (uint32_t)n;
    return true;
}

static bool flag(const char *text, bool *value) {
    uint64_t n;
    if (!number(text, &n) || n > 1) {
        return false;
    }
    *value = n == 1;
    return true;
}

/* a slot below JUOP_NONE, or `-` for none */
static bool slot_or_none(const char *text, size_t *value) {
    if (strcmp(text, "-") == 0) {
        *value = JUOP_NONE;
        return true;
    }
    uint64_t n;
    if (!number(text, &n) || n >= JUOP_NONE) {
        return false;
    }
    *value = n;
    return true;
}

/* ---- answers */

static bool ok(void) {
    puts("ok");
    return true;
}

/* Writes a refusal; else answers false, and the caller writes what it was. */
static bool refused(juop_answer answer) {
    if (answer.refused != 0) {
        printf("refused %" PRIu64 "\n", answer.refused);
    }
    return answer.refused != 0;
}

static bool done(juop_answer answer) {
    return refused(answer) || ok();
}

static bool pulled(juop_answer answer) {
    if (refused(answer)) {
        return true;
    }
    if (answer.kind == JUOP_END) {
        puts("end");
    } else {
        printf("%s %" PRIu64 " %" PRIu64 " %" PRIu64 "\n", answer.kind == JUOP_EXPIRED ? "expired" : "rescheduled",
               answer.value[0], answer.value[1], answer.value[2]);
    }
    return true;
}

/* ---- dump lines: as text, or into a digest */

static bool digesting;
static uint64_t digest;

static void word(const char *label) {
    if (!digesting) {
        fputs(label, stdout);
    }
}

static void add(uint64_t n) {
    digest = (digest ^ n) * UINT64_C(1099511628211);
}

static void show(uint64_t n) {
    if (digesting) {
        add(n);
    } else {
        printf(" %" PRIu64, n);
    }
}

static void show_slot(size_t slot) {
    if (slot != JUOP_NONE) {
        show(slot);
    } else if (digesting) {
        add(UINT64_MAX);
    } else {
        fputs(" -", stdout);
    }
}

static void show_deadline(bool has, uint64_t deadline) {
    if (digesting) {
        add(has);
        add(has ? deadline : 0);
    } else if (has) {
        show(deadline);
    } else {
        fputs(" -", stdout);
    }
}

static void line_end(void) {
    if (!digesting) {
        putchar('\n');
    }
}

static void show_clock(void) {
    const juop_clock *clock = &wheel.clock;
    const uint64_t numbers[] = {clock->enabled,  clock->reading, clock->serial, clock->open,   clock->previous,
                                clock->level, clock->step,    clock->nodes,  clock->entries};
    word("clock");
    for (size_t i = 0; i < sizeof numbers / sizeof *numbers; i++) {
        show(numbers[i]);
    }
    show_slot(clock->free);
    line_end();
}

static void show_all(void) {
    show_clock();
    for (size_t bucket = 0; bucket < JUOP_BUCKETS; bucket++) {
        word("bucket");
        show(bucket);
        show_slot(wheel.heads[bucket]);
        show_slot(wheel.tails[bucket]);
        line_end();
    }
    for (size_t slot = 0; slot < wheel.nodes_len; slot++) {
        const juop_node *node = &wheel.nodes[slot];
        word("node");
        show(slot);
        show_slot(node->next);
        show_slot(node->prev);
        show_slot(node->bucket);
        show(node->entry);
        show(node->generation);
        show(node->serial);
        line_end();
    }
    for (size_t e = 0; e < wheel.entries_len; e++) {
        word("entry");
        show(e);
        show_deadline(wheel.dated[e], wheel.deadline[e]);
        show(wheel.generation[e]);
        line_end();
    }
}

static bool dumped(void) {
    digesting = false;
    show_all();
    return true;
}

static bool digested(void) {
    digesting = true;
    digest = UINT64_C(14695981039346656037);
    show_all();
    digesting = false;
    printf("digest %" PRIu64 "\n", digest);
    return true;
}

/* The slots from a head by the next links, as many as there are records at most. */
static bool bucket_listed(const char *text) {
    uint64_t bucket;
    if (!number(text, &bucket) || bucket >= JUOP_BUCKETS) {
        return false;
    }
    fputs("bucket", stdout);
    size_t slot = wheel.heads[bucket];
    for (size_t n = 0; n < wheel.nodes_len && slot < wheel.nodes_len && slot != JUOP_NONE; n++) {
        printf(" %zu", slot);
        slot = wheel.nodes[slot].next;
    }
    putchar('\n');
    return true;
}

/* ---- pokes */

static bool poke_node(const char *at, const char *field, const char *value) {
    uint64_t slot;
    if (!number(at, &slot) || slot >= wheel.nodes_len) {
        return false;
    }
    juop_node *node = &wheel.nodes[slot];
    uint64_t n = 0;
    bool good;
    if (strcmp(field, "next") == 0) {
        good = slot_or_none(value, &node->next);
    } else if (strcmp(field, "prev") == 0) {
        good = slot_or_none(value, &node->prev);
    } else if (strcmp(field, "bucket") == 0) {
        good = slot_or_none(value, &node->bucket);
    } else if (strcmp(field, "entry") == 0) {
        good = number(value, &n);
        node->entry = good ? n : node->entry;
    } else if (strcmp(field, "generation") == 0) {
        good = generation(value, &node->generation);
    } else {
        good = strcmp(field, "serial") == 0 && number(value, &node->serial);
    }
    return good && ok();
}

static bool poke_bucket(const char *at, const char *field, const char *value) {
    uint64_t bucket;
    if (!number(at, &bucket) || bucket >= JUOP_BUCKETS) {
        return false;
    }
    if (strcmp(field, "head") == 0) {
        return slot_or_none(value, &wheel.heads[bucket]) && ok();
    }
    return strcmp(field, "tail") == 0 && slot_or_none(value, &wheel.tails[bucket]) && ok();
}

static bool poke_clock(const char *field, const char *value) {
    juop_clock *clock = &wheel.clock;
    uint64_t n;
    if (strcmp(field, "enabled") == 0) {
        return flag(value, &clock->enabled) && ok();
    }
    if (strcmp(field, "open") == 0) {
        return flag(value, &clock->open) && ok();
    }
    if (strcmp(field, "free") == 0) {
        return slot_or_none(value, &clock->free) && ok();
    }
    if (!number(value, &n)) {
        return false;
    }
    if (strcmp(field, "reading") == 0) {
        clock->reading = n;
    } else if (strcmp(field, "serial") == 0) {
        clock->serial = n;
    } else if (strcmp(field, "previous") == 0) {
        clock->previous = n;
    } else if (strcmp(field, "level") == 0) {
        clock->level = n;
    } else if (strcmp(field, "step") == 0) {
        clock->step = n;
    } else if (strcmp(field, "nodes") == 0) {
        clock->nodes = n;
    } else if (strcmp(field, "entries") == 0) {
        clock->entries = n;
    } else {
        return false;
    }
    return ok();
}

/* ---- calls: each answers whether the line was one */

/* An array of so many zeroed values, in place of the former one. */
static void *zeroed(void *former, size_t count, size_t size) {
    free(former);
    void *made = calloc(count + 1, size);
    if (made == NULL) {
        die("no memory");
    }
    return made;
}

static bool lend(const char *nodes, const char *entries) {
    uint64_t n, e;
    if (!number(nodes, &n) || !number(entries, &e) || n > LENT_MOST || e > LENT_MOST) {
        return false;
    }
    juop_wheel_lend(&wheel, zeroed(wheel.nodes, n, sizeof *wheel.nodes), n, zeroed(wheel.dated, e, sizeof *wheel.dated),
                    zeroed(wheel.deadline, e, sizeof *wheel.deadline),
                    zeroed(wheel.generation, e, sizeof *wheel.generation), e);
    juop_wheel_create(&wheel, 0);
    lent = true;
    return ok();
}

static bool place(const char *reading, const char *deadline) {
    uint64_t p, d;
    if (!number(reading, &p) || !number(deadline, &d)) {
        return false;
    }
    printf("place %" PRIu64 "\n", juop_place(p, d));
    return true;
}

static bool set_entry(const char *entry, const char *deadline, const char *h) {
    uint64_t e, due;
    uint32_t g;
    if (!number(entry, &e) || !generation(h, &g)) {
        return false;
    }
    if (strcmp(deadline, "-") == 0) {
        return done(juop_wheel_clear_entry(&wheel, e, g));
    }
    return number(deadline, &due) && done(juop_wheel_set_entry(&wheel, e, due, g));
}

static bool schedule(const char *entry, const char *h) {
    uint64_t e;
    uint32_t g;
    if (!number(entry, &e) || !generation(h, &g)) {
        return false;
    }
    const juop_answer answer = juop_wheel_schedule(&wheel, e, g);
    if (!refused(answer)) {
        printf("armed %" PRIu64 " %" PRIu64 "\n", answer.value[0], answer.value[1]);
    }
    return true;
}

static bool handle_call(const char *call, const char *at, const char *with, const char *h) {
    uint64_t slot, serial;
    uint32_t g;
    if (!number(at, &slot) || !number(with, &serial) || !generation(h, &g)) {
        return false;
    }
    if (strcmp(call, "deschedule") == 0) {
        return done(juop_wheel_deschedule(&wheel, slot, serial, g));
    }
    const juop_answer answer = juop_wheel_reschedule(&wheel, slot, serial, g);
    if (!refused(answer)) {
        puts(answer.kind == JUOP_REMOVED ? "removed" : "rescheduled");
    }
    return true;
}

static bool armed(void) {
    const juop_answer answer = juop_wheel_armed_count(&wheel);
    if (!refused(answer)) {
        printf("armed %" PRIu64 "\n", answer.value[0]);
    }
    return true;
}

static bool due(void) {
    const juop_answer answer = juop_wheel_next_due(&wheel);
    if (refused(answer)) {
        return true;
    }
    if (answer.kind == JUOP_DUE) {
        printf("due %" PRIu64 "\n", answer.value[0]);
    } else {
        puts("due -");
    }
    return true;
}

static bool create(const char *first) {
    uint64_t n;
    if (!number(first, &n)) {
        return false;
    }
    juop_wheel_create(&wheel, n);
    return ok();
}

static bool start(const char *reading) {
    uint64_t q;
    return number(reading, &q) && done(juop_wheel_start(&wheel, q));
}

static bool clock_shown(void) {
    show_clock();
    return true;
}

/* Whether the line is this call, with so many fields after the word. */
static bool is(const fields *line, const char *call, size_t given) {
    return line->count == given + 1 && strcmp(line->at[0], call) == 0;
}

static bool plain_call(const fields *line) {
    return is(line, "enable", 0)    ? done(juop_wheel_enable(&wheel))
           : is(line, "pull", 0)    ? pulled(juop_wheel_pull(&wheel))
           : is(line, "abandon", 0) ? done(juop_wheel_abandon(&wheel))
           : is(line, "armed", 0)   ? armed()
           : is(line, "due", 0)     ? due()
           : is(line, "clock", 0)   ? clock_shown()
           : is(line, "dump", 0)    ? dumped()
           : is(line, "digest", 0)  ? digested()
                                    : false;
}

static bool wheel_call(const fields *line) {
    char *const *at = line->at;
    return is(line, "create", 1)        ? create(at[1])
           : is(line, "start", 1)       ? start(at[1])
           : is(line, "bucket", 1)      ? bucket_listed(at[1])
           : is(line, "schedule", 2)    ? schedule(at[1], at[2])
           : is(line, "poke-clock", 2)  ? poke_clock(at[1], at[2])
           : is(line, "set", 3)         ? set_entry(at[1], at[2], at[3])
           : is(line, "reschedule", 3)  ? handle_call(at[0], at[1], at[2], at[3])
           : is(line, "deschedule", 3)  ? handle_call(at[0], at[1], at[2], at[3])
           : is(line, "poke-node", 3)   ? poke_node(at[1], at[2], at[3])
           : is(line, "poke-bucket", 3) ? poke_bucket(at[1], at[2], at[3])
                                        : plain_call(line);
}

static bool call(const fields *line) {
    if (is(line, "lend", 2)) {
        return lend(line->at[1], line->at[2]);
    }
    if (is(line, "place", 2)) {
        return place(line->at[1], line->at[2]);
    }
    return lent && wheel_call(line);
}

/* ---- lines */

/* The line's fields, cut at each space. A line of more fields than any call has keeps the last of them whole. */
static fields cut(char *text) {
    fields line = {0, {NULL}};
    while (line.count < FIELDS_MOST) {
        line.at[line.count++] = text;
        text = strchr(text, ' ');
        if (text == NULL) {
            break;
        }
        *text++ = '\0';
    }
    return line;
}

static void answer_line(char *text, size_t length) {
    if (length == 0 || (length <= LONGEST && text[0] == '#')) {
        return;
    }
    if (length <= LONGEST && memchr(text, '\0', length) == NULL) {
        text[length] = '\0';
        const fields line = cut(text);
        if (call(&line)) {
            return;
        }
    }
    puts("bad line");
}

int main(void) {
    char text[LONGEST + 1];
    size_t length = 0;
    int byte;
    while ((byte = getchar()) != EOF) {
        if (byte == '\n') {
            answer_line(text, length);
            length = 0;
        } else {
            if (length < LONGEST) {
                text[length] = (char)byte;
            }
            length++;
        }
    }
    answer_line(text, length);
    return ferror(stdin) || fflush(stdout) != 0 ? 2 : 0;
}
