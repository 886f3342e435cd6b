/*
 * The merge through its C function: document 01's examples, every byte of the
 * lent memory, and the depth of the stack, on a thread that has 64 KiB.
 */
#define _GNU_SOURCE
#include <pthread.h>
#include <stdio.h>
#include <string.h>
#include <sys/mman.h>

#include "narguvesh.h"

#define STACK 65536
#define PAGE 4096
#define EDGE 64
#define LONGEST 65536

static int passed, failed;

static void expect(int good, const char *name, const char *what)
{
    if (good) {
        passed++;
    } else {
        failed++;
        printf("FAILED %s: %s\n", name, what);
    }
}

/* ---- a sheet, written bit after bit */

static uint8_t sheet[LONGEST + 1];
static size_t bits;

static void put(uint64_t value, int width)
{
    while (width-- > 0) {
        if (bits % 8 == 0)
            sheet[bits / 8] = 0;
        if (value >> width & 1)
            sheet[bits / 8] |= (uint8_t)(0x80 >> bits % 8);
        bits++;
    }
}

static void file(int container, unsigned claim, const char *path)
{
    size_t n = strlen(path), i;
    put(1, 3), put((uint64_t)container, 1), put(claim, 3), put(n, 8);
    for (i = 0; i < n; i++)
        put((uint8_t)path[i], 8);
}

static void source(unsigned number, uint32_t id)
{
    put(2, 3), put(number, 5), put(id, 32);
}

static void snapshot(unsigned number, unsigned c, int64_t x, unsigned d, int64_t y)
{
    put(3, 3), put(number, 5), put(c, 3), put((uint64_t)x, 64), put(d, 3), put((uint64_t)y, 64);
}

static void event(unsigned number, unsigned clock, int64_t reading)
{
    put(4, 3), put(number, 5), put(clock, 3), put((uint64_t)reading, 64);
}

/* The end record; how many bytes the sheet has. */
static size_t ended(void)
{
    size_t n;
    put(0, 3);
    while (bits % 8 != 0)
        put(0, 1);
    n = bits / 8;
    bits = 0;
    return n;
}

/* ---- the lent memory: each piece between two edges, so that a write past its end is seen */

struct lent {
    size_t machines, times, kinds, steps, matrix, readings, clocks;
};

static const struct lent full = {
    NARGUVESH_MACHINES, NARGUVESH_EVENTS, NARGUVESH_EVENTS, NARGUVESH_EVENTS,
    NARGUVESH_MATRIX, NARGUVESH_EVENTS, NARGUVESH_EVENTS
};

static union {
    uint8_t machines[2 * EDGE + NARGUVESH_MACHINES + 8];
    int64_t aligned;
} a_machines;
static int64_t a_times[2 * EDGE + NARGUVESH_EVENTS], a_readings[2 * EDGE + NARGUVESH_EVENTS];
static uint8_t a_kinds[2 * EDGE + NARGUVESH_EVENTS], a_matrix[2 * EDGE + NARGUVESH_MATRIX];
static uint16_t a_steps[2 * EDGE + NARGUVESH_EVENTS], a_clocks[2 * EDGE + NARGUVESH_EVENTS];
static uint32_t a_summary[2 * EDGE + NARGUVESH_SUMMARY];

static uint8_t *const machines = a_machines.machines + EDGE;
static int64_t *const times = a_times + EDGE, *const readings = a_readings + EDGE;
static uint8_t *const kinds = a_kinds + EDGE, *const matrix = a_matrix + EDGE;
static uint16_t *const steps = a_steps + EDGE, *const clocks = a_clocks + EDGE;
static uint32_t *const summary = a_summary + EDGE;

/* Whether all bytes from one to another have a value. */
static int all(const void *from, const void *to, uint8_t value)
{
    const uint8_t *p = from, *end = to;
    while (p < end)
        if (*p++ != value)
            return 0;
    return 1;
}

/* ---- a call, on a thread whose stack is STACK bytes above a page that traps */

static struct call {
    const uint8_t *manifest, *sheet;
    size_t manifest_length, sheet_length;
    struct lent lent;
    uint8_t *stack;
    size_t depth;
    uint8_t answer;
} now;

static size_t deepest;

static void *call(void *unused)
{
    volatile uint8_t here = 0;
    uintptr_t top = (uintptr_t)&here;
    uint8_t *p;
    (void)unused;
    /* What lies a little below this variable is this function's own. */
    for (p = now.stack; (uintptr_t)p < top - 256; p++)
        *(volatile uint8_t *)p = 0xA5;
    now.answer = narguvesh_merge(now.manifest, now.manifest_length, now.sheet, now.sheet_length,
                                 machines, now.lent.machines, times, now.lent.times, kinds, now.lent.kinds,
                                 steps, now.lent.steps, matrix, now.lent.matrix, readings, now.lent.readings,
                                 clocks, now.lent.clocks, summary);
    for (p = now.stack; *(volatile uint8_t *)p == 0xA5; p++)
        ;
    now.depth = top - (uintptr_t)p;
    return NULL;
}

static void on_small_stack(void)
{
    pthread_attr_t attr;
    pthread_t thread;
    uint8_t *room = mmap(NULL, PAGE + STACK, PROT_READ | PROT_WRITE, MAP_PRIVATE | MAP_ANONYMOUS, -1, 0);
    if (room == MAP_FAILED || mprotect(room, PAGE, PROT_NONE) != 0) {
        expect(0, "stack", "no memory for the thread's stack");
        return;
    }
    now.stack = room + PAGE;
    if (pthread_attr_init(&attr) != 0 || pthread_attr_setstack(&attr, now.stack, STACK) != 0
        || pthread_create(&thread, &attr, call, NULL) != 0 || pthread_join(thread, NULL) != 0)
        expect(0, "stack", "no thread with a stack of 64 KiB");
    pthread_attr_destroy(&attr);
    munmap(room, PAGE + STACK);
    if (now.depth > deepest)
        deepest = now.depth;
}

/* How many elements hold answers, when the merge is accepted. */
struct held {
    size_t sources, events;
};

#define EDGES(array, length) \
    (all(array, array + EDGE, 0xAA) && all(array + EDGE + (length), (const uint8_t *)array + sizeof array, 0xAA))

/* Merges in memory that holds 0xAA, and sees to every byte but the answers. */
static uint8_t merge(const char *name, const char *manifest, size_t n, const uint8_t *from, size_t bytes,
                     struct lent lent, struct held held)
{
    static const uint8_t none;
    memset(&a_machines, 0xAA, sizeof a_machines), memset(a_times, 0xAA, sizeof a_times);
    memset(a_kinds, 0xAA, sizeof a_kinds), memset(a_steps, 0xAA, sizeof a_steps);
    memset(a_matrix, 0xAA, sizeof a_matrix), memset(a_readings, 0xAA, sizeof a_readings);
    memset(a_clocks, 0xAA, sizeof a_clocks), memset(a_summary, 0xAA, sizeof a_summary);
    memset(&now, 0, sizeof now);
    now.manifest = n ? (const uint8_t *)manifest : &none, now.manifest_length = n;
    now.sheet = bytes ? from : &none, now.sheet_length = bytes;
    now.lent = lent;
    on_small_stack();
    if (now.answer != 0)
        held.sources = held.events = 0;
    expect(EDGES(a_machines.machines, lent.machines) && EDGES(a_times, lent.times) && EDGES(a_kinds, lent.kinds)
           && EDGES(a_steps, lent.steps) && EDGES(a_matrix, lent.matrix) && EDGES(a_readings, lent.readings)
           && EDGES(a_clocks, lent.clocks) && EDGES(a_summary, NARGUVESH_SUMMARY), name, "a write outside the lent memory");
    expect(all(machines + held.sources, machines + lent.machines, 0) && all(times + held.events, times + lent.times, 0)
           && all(kinds + held.events, kinds + lent.kinds, 0) && all(steps + held.events, steps + lent.steps, 0),
           name, "output past the answers is not zero");
    expect(all(matrix, matrix + lent.matrix, 0) && all(readings, readings + lent.readings, 0)
           && all(clocks, clocks + lent.clocks, 0), name, "work memory is not zero");
    if (now.answer != 0)
        expect(all(summary, summary + NARGUVESH_SUMMARY, 0), name, "the summary of a refusal is not zero");
    return now.answer;
}

/* ---- what is expected of a merge */

static void refused(const char *name, const char *manifest, size_t n, size_t bytes, int number)
{
    struct held held = { 0, 0 };
    char what[64];
    int got = merge(name, manifest, n, sheet, bytes, full, held);
    sprintf(what, "answered %d, not %d", got, number);
    expect(got == number, name, what);
}

static void accepted(const char *name, const char *manifest, size_t bytes, size_t sources,
                     uint32_t files, uint32_t count, uint32_t events, uint32_t trace)
{
    struct held held;
    char what[160];
    int got;
    held.sources = sources, held.events = events;
    got = merge(name, manifest, strlen(manifest), sheet, bytes, full, held);
    sprintf(what, "answered %d, files %u, machines %u, events %u, trace %u", got, (unsigned)summary[NARGUVESH_FILES],
            (unsigned)summary[NARGUVESH_COUNT], (unsigned)summary[NARGUVESH_LISTED], (unsigned)summary[NARGUVESH_TRACE]);
    expect(got == NARGUVESH_MERGED && summary[NARGUVESH_FILES] == files && summary[NARGUVESH_COUNT] == count
           && summary[NARGUVESH_LISTED] == events && summary[NARGUVESH_TRACE] == trace, name, what);
}

static void answer(const char *name, size_t k, int64_t time, int kind, int length)
{
    char what[96];
    sprintf(what, "event %u: %lld, kind %d, %d steps", (unsigned)k, (long long)times[k], kinds[k], steps[k]);
    expect(times[k] == time && kinds[k] == kind && steps[k] == length, name, what);
}

/* ---- document 01's examples */

static const uint8_t one_event[] = {
    0x2C, 0x02, 0xC2, 0x80, 0x00, 0x00, 0x00, 0x01, 0x01, 0x80, 0x00, 0x00, 0x00, 0x00, 0x00, 0x00, 0x01, 0x40
};

static void small_sheets(void)
{
    memcpy(sheet, one_event, sizeof one_event);
    accepted("one event", "", sizeof one_event, 1, 1, 1, 1, 5);
    answer("one event", 0, 5, NARGUVESH_GRAPH_1, 0);
    expect(machines[0] == 0, "one event", "the source is not on the host");
    refused("no sheet", "", 0, 0, 25);
    sheet[0] = 0;
    accepted("an empty sheet", "", 1, 0, 0, 1, 0, NARGUVESH_UNTRACED);
    accepted("an empty sheet with trace_time",
             "{\"perfetto_manifest\": {\"version\": 1, \"trace_time\": {\"clock\": \"BOOTTIME\"}}}", 1, 0, 0, 1, 0,
             NARGUVESH_UNTRACED);
    sheet[1] = 0;
    refused("a byte after the end", "", 0, 2, 29);
    memset(sheet, 0, sizeof sheet);
    refused("a sheet too long", "", 0, LONGEST + 1, 25);
    refused("the longest sheet", "", 0, LONGEST, 29);
}

#define PHONE "{\"perfetto_manifest\": {\"version\": 1, \"trace_time\": {\"clock\": \"BOOTTIME\""
#define FILES "}, \"files\": [{\"path\": \"phone.pftrace\", \"machine\": {\"name\": \"phone\"}}, " \
    "{\"path\": \"watch.pftrace\", \"machine\": {\"name\": \"watch\"}}, {\"path\": \"app_log.json\", " \
    "\"clocks\": {\"sync_to\": {\"file\": \"phone.pftrace\", \"clock\": \"BOOTTIME\"}, \"offset_ns\": "
#define CLOSE "}}]}}"
#define ON_PHONE ", \"file\": \"phone.pftrace\""

static const char example[] = PHONE FILES "250000000" CLOSE;

/* The example's files in its order, one source each with id 0, and one event of app_log that reads 7. */
static size_t example_sheet(void)
{
    file(0, 0, "phone.pftrace"), file(0, 0, "watch.pftrace"), file(0, 0, "app_log.json");
    source(0, 0), source(1, 0), source(2, 0);
    event(2, 0, 7);
    return ended();
}

static void documents_example(void)
{
    size_t n = example_sheet();
    accepted("the example", example, n, 3, 3, 3, 1, 5);
    answer("the example", 0, 250000007, NARGUVESH_GRAPH_3, 2);
    expect(machines[0] == 1 && machines[1] == 2 && machines[2] == 0, "the example", "the machines of the sources");
    accepted("trace time on the phone", PHONE ON_PHONE FILES "250000000" CLOSE, n, 3, 3, 3, 1, 11);
    answer("trace time on the phone", 0, 250000007, NARGUVESH_GRAPH_1, 1);
    accepted("offset -8", PHONE ON_PHONE FILES "-8" CLOSE, n, 3, 3, 3, 1, 11);
    answer("offset -8", 0, 0, NARGUVESH_EARLY, 0);
    accepted("the least offset", PHONE FILES "-9223372036854775807" CLOSE, n, 3, 3, 3, 1, 5);
    answer("the least offset", 0, 0, NARGUVESH_EARLY, 0);
    refused("an offset below it", PHONE FILES "-9223372036854775808" CLOSE, strlen(PHONE FILES "-9223372036854775808" CLOSE), n, 23);
    accepted("out of range", PHONE FILES "9223372036854775807" CLOSE, n, 3, 3, 3, 1, 5);
    answer("out of range", 0, 0, NARGUVESH_RANGE, 0);
}

/* ---- times of a snapshot's list, forwards and backwards, and an event without a path */

static void snapshots(void)
{
    size_t n;
    file(0, 1, "a"), source(0, 0), source(0, 9);
    snapshot(0, 2, 100, 1, 1000), snapshot(0, 2, 200, 1, 1110), snapshot(0, 1, 5, 3, 5);
    event(0, 2, 150), event(0, 2, 199), event(0, 2, 200), event(0, 2, 50), event(1, 4, 77), event(0, 1, 1105), event(0, 3, -9);
    n = ended();
    accepted("a list", "", n, 2, 1, 2, 7, 0);
    answer("a list", 0, 1050, NARGUVESH_GRAPH_1, 1);
    answer("a list", 1, 1099, NARGUVESH_GRAPH_1, 1);
    answer("a list", 2, 1110, NARGUVESH_GRAPH_1, 1);
    answer("a list", 3, 950, NARGUVESH_GRAPH_1, 1);
    answer("a list", 4, 0, NARGUVESH_UNRELATED, 0);
    answer("a list", 5, 1105, NARGUVESH_GRAPH_1, 0);
    answer("a list", 6, 0, NARGUVESH_EARLY, 0);
    expect(machines[0] == 0 && machines[1] == 1, "a list", "the machines of the sources");
}

/* ---- manifests that are refused, or only just not */

static char text[LONGEST + 2];

static void nested(int levels, int number)
{
    size_t n;
    int i;
    strcpy(text, "{\"perfetto_manifest\": {\"version\": 1, \"x\": ");
    for (i = 2; i < levels; i++)
        strcat(text, "[");
    for (i = 2; i < levels; i++)
        strcat(text, "]");
    strcat(text, "}}");
    n = strlen(text);
    sheet[0] = 0;
    if (number)
        refused("seventeen levels", text, n, 1, number);
    else
        accepted("sixteen levels", text, 1, 0, 0, 1, 0, NARGUVESH_UNTRACED);
}

static void identified(const char *id, int number)
{
    size_t n;
    sprintf(text, "{\"perfetto_manifest\": {\"version\": 1, \"files\": [{\"path\": \"a\", \"machines\": [{\"id\": %s, \"name\": \"m\"}]}]}}", id);
    n = strlen(text);
    sheet[0] = 0;
    if (number)
        refused("an id too great", text, n, 1, number);
    else
        accepted("the greatest id", text, 1, 0, 0, 2, 0, NARGUVESH_UNTRACED);
}

static void manifests(void)
{
    static const struct { const char *text; int number; } each[] = {
        { "{ \"perfetto_manifest\": {\"version\": 1}}", 2 },
        { "{\"perfetto_manifest\": {\"version\": 1}} x", 3 },
        { "{\"perfetto_manifest\": {\"version\": 1}, \"y\": 0}", 5 },
        { "{\"perfetto_manifest\": {}}", 6 },
        { "{\"perfetto_manifest\": {\"version\": 1.0}}", 7 },
        { "{\"perfetto_manifest\": {\"version\": 1, \"version\": 1}}", 8 },
        { "{\"perfetto_manifest\": {\"version\": 1, \"files\": 0}}", 9 },
        { "{\"perfetto_manifest\": {\"version\": 1, \"trace_time\": {\"clock\": \"TAI\"}}}", 11 }
    };
    size_t i;
    sheet[0] = 0;
    for (i = 0; i < sizeof each / sizeof each[0]; i++)
        refused(each[i].text, each[i].text, strlen(each[i].text), 1, each[i].number);
    memset(text, ' ', sizeof text);
    refused("a manifest too long", text, LONGEST + 1, 1, 1);
    refused("blanks alone", text, LONGEST, 1, 2);
    nested(16, 0), nested(17, 4);
    identified("4294967295", 0), identified("4294967296", 14);
}

/* ---- lent memory that is one too short: 38, and nothing but zeros */

static void short_memory(void)
{
    static const char *const names[] = {
        "machines too short", "times too short", "kinds too short", "steps too short",
        "matrix too short", "readings too short", "clocks too short"
    };
    struct lent enough = { 3, 1, 1, 1, NARGUVESH_MATRIX, 1, 1 };
    struct held held = { 3, 1 };
    size_t n = example_sheet(), i;
    expect(merge("just enough", example, strlen(example), sheet, n, enough, held) == NARGUVESH_MERGED, "just enough", "is refused");
    answer("just enough", 0, 250000007, NARGUVESH_GRAPH_3, 2);
    for (i = 0; i < 7; i++) {
        struct lent lent = enough;
        size_t *const each[] = { &lent.machines, &lent.times, &lent.kinds, &lent.steps, &lent.matrix, &lent.readings, &lent.clocks };
        --*each[i];
        expect(merge(names[i], example, strlen(example), sheet, n, lent, held) == NARGUVESH_TOO_SHORT, names[i], "is not 38");
    }
}

/* ---- the heaviest inputs */

static void add(const char *more)
{
    static size_t length;
    if (more == NULL) {
        length = 0;
        return;
    }
    strcpy(text + length, more);
    length += strlen(more);
}

/* A member that is skipped, with values nested down to the 16th level, from a level on. */
static void deep(int level)
{
    int i;
    add("\"\\ud83d\\ude00\": ");
    for (i = level; i < 16; i++)
        add(i % 2 ? "[" : "{\"\\ud83d\\ude00\\u0061\": ");
    add("[\"\\u00e9\\ud83d\\ude00\", -1.5e-3]");
    for (i = 15; i >= level; i--)
        add(i % 2 ? "]" : "}");
}

/* 32 entries with 32 items each, the last levels used in each entry. */
static void heavy_manifest(void)
{
    char part[256];
    int i, j;
    add(NULL);
    add("{\"perfetto_manifest\": {\"version\": 1, ");
    deep(3);
    add(", \"trace_time\": {\"clock\": \"BOOTTIME\", \"file\": \"f31\", \"machine\": \"m30\"}, \"files\": [");
    for (i = 0; i < 32; i++) {
        sprintf(part, "%s{\"path\": \"f%d\", \"clocks\": {\"sync_to\": {\"file\": \"f%d\", \"machine\": \"m%d\", \"clock\": \"MONOTONIC_COARSE\", ",
                i ? ", " : "", i, (i + 1) % 32, (i + 1) % 31);
        add(part);
        if (i % 8 == 0)
            deep(7);
        else
            add("\"y\": 0");
        sprintf(part, "}, \"offset_ns\": -12345678901, \"machine\": \"m%d\", \"clock\": \"BOOTTIME\"}, \"machines\": [", i % 31);
        add(part);
        for (j = 0; j < 32; j++) {
            sprintf(part, "%s{\"id\": %d, \"name\": \"m%d\"}", j ? ", " : "", j, j % 31);
            add(part);
        }
        add("]}");
    }
    add("]}}");
}

/* As many events as a sheet takes after 32 files, 32 sources and 250 snapshots; how many there are. */
static uint32_t heavy_sheet(size_t *bytes)
{
    char path[8];
    unsigned i;
    uint32_t events = 0;
    for (i = 0; i < 32; i++) {
        sprintf(path, "f%u", i);
        file(0, i % 7, path);
    }
    for (i = 0; i < 32; i++)
        source(i, (i * 7) % 31);
    for (i = 0; i < 250; i++)
        snapshot(i % 32, 1 + i % 6, (int64_t)i * 1000003, 1 + (i + 1 + i / 32 % 5) % 6, (int64_t)i * 999983 + 17);
    while (bits + 75 + 3 <= 8 * (size_t)LONGEST) {
        event(events % 32, events % 7, (int64_t)events * 7919 + 1000000000);
        events++;
    }
    *bytes = ended();
    return events;
}

static void heavy(void)
{
    size_t bytes, k;
    uint32_t events = heavy_sheet(&bytes), placed = 0;
    int good = 1;
    heavy_manifest();
    accepted("the heaviest", text, bytes, 32, 32, 32, events, 6 * 31 + 5);
    for (k = 0; k < events; k++) {
        good = good && kinds[k] >= NARGUVESH_GRAPH_1 && kinds[k] <= NARGUVESH_EARLY && steps[k] < NARGUVESH_CLOCKS;
        placed += kinds[k] <= NARGUVESH_GRAPH_3;
    }
    expect(good && placed > 0, "the heaviest", "no event is placed, or a kind or a number of steps is none");
    printf("%u events, %u of them placed\n", (unsigned)events, (unsigned)placed);
    /* a refusal deep inside, and one at the very end */
    text[strlen(text) - 1] = 'x';
    refused("the heaviest, its last byte wrong", text, strlen(text), bytes, 3);
    heavy_manifest();
    sheet[bytes] = 0;
    if (bytes < LONGEST)
        refused("the heaviest, with a byte after the end", text, strlen(text), bytes + 1, 29);
}

/* As many events as fit a sheet at all: NARGUVESH_EVENTS is no less. */
static void most_events(void)
{
    uint32_t events = 0;
    size_t bytes;
    file(0, 6, "a"), source(0, 0);
    while (bits + 75 + 3 <= 8 * (size_t)LONGEST) {
        event(0, 6, (int64_t)events);
        events++;
    }
    bytes = ended();
    accepted("only events", "", bytes, 1, 1, 1, events, 5);
    answer("only events", events - 1, (int64_t)events - 1, NARGUVESH_GRAPH_1, 0);
    expect(events <= NARGUVESH_EVENTS && events + 2 > NARGUVESH_EVENTS, "only events", "NARGUVESH_EVENTS");
}

int main(void)
{
    char what[64];
    small_sheets();
    documents_example();
    snapshots();
    manifests();
    short_memory();
    heavy();
    most_events();
    sprintf(what, "%u bytes", (unsigned)deepest);
    expect(deepest < STACK, "stack", what);
    printf("the stack went %u bytes deep, of %u\n", (unsigned)deepest, (unsigned)STACK);
    printf("%d passed, %d failed\n", passed, failed);
    return failed != 0;
}
