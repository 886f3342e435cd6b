/* Times the proved merge beside the plain one, on one input in one run.

     time input FOLDER NAME ROUNDS MILLISECONDS    a line: name, events, nanoseconds of a proved and of a plain call
     time batch proved|plain                       answers frames from standard input as the program batch does (tests/second/frames.py)

   Before an input is timed both are called on memory full of other bytes, and every byte must come out the same. The rounds of the
   two alternate, and the best one counts, so that other work on the machine weighs on both alike. */
#define _POSIX_C_SOURCE 199309L
#include <inttypes.h>
#include <stdio.h>
#include <stdlib.h>
#include <string.h>
#include <time.h>

#include "narguvesh.h"
#include "plain.h"

#define SOURCES NARGUVESH_MACHINES
#define EVENTS NARGUVESH_EVENTS
#define CELLS NARGUVESH_MATRIX
#define LONGEST 65536

/* All that a call writes. */
struct lent {
    int64_t times[EVENTS], readings[EVENTS];
    uint16_t steps[EVENTS], clocks[EVENTS];
    uint8_t kinds[EVENTS], machines[SOURCES], matrix[CELLS];
    uint32_t summary[4];
};

struct input {
    uint8_t manifest[LONGEST + 1], sheet[LONGEST + 1];
    size_t manifest_len, sheet_len;
};

static uint8_t proved(const struct input *in, struct lent *out) {
    return narguvesh_merge(in->manifest, in->manifest_len, in->sheet, in->sheet_len, out->machines, SOURCES, out->times, EVENTS, out->kinds,
                           EVENTS, out->steps, EVENTS, out->matrix, CELLS, out->readings, EVENTS, out->clocks, EVENTS, out->summary);
}

static uint8_t plain(const struct input *in, struct lent *out) {
    return plain_merge(in->manifest, in->manifest_len, in->sheet, in->sheet_len, out->machines, SOURCES, out->times, EVENTS, out->kinds,
                       EVENTS, out->steps, EVENTS, out->matrix, CELLS, out->readings, EVENTS, out->clocks, EVENTS, out->summary);
}

typedef uint8_t call(const struct input *, struct lent *);

static struct input given;
static struct lent first, second;

static size_t content(const char *folder, const char *name, const char *ending, uint8_t *into) {
    char path[4096];
    FILE *file;
    size_t length;
    snprintf(path, sizeof path, "%s/%s.%s", folder, name, ending);
    file = fopen(path, "rb");
    if (!file) return 0;
    length = fread(into, 1, LONGEST + 1, file);
    fclose(file);
    return length;
}

/* Nanoseconds of the processor, so that waiting for it does not count. */
static double now(void) {
    struct timespec t;
    clock_gettime(CLOCK_PROCESS_CPUTIME_ID, &t);
    return (double)t.tv_sec * 1e9 + (double)t.tv_nsec;
}

/* Nanoseconds of n calls. */
static double spent(call *f, struct lent *out, long n) {
    double start = now();
    long i;
    for (i = 0; i < n; i++) f(&given, out);
    return now() - start;
}

/* How many calls last so many nanoseconds. */
static long enough(call *f, struct lent *out, double wanted) {
    long n = 1;
    for (;;) {
        double took = spent(f, out, n);
        if (took >= wanted / 4) return (long)((double)n * wanted / took) + 1;
        n *= 2;
    }
}

/* Whether both accept, and leave the same in every byte that was lent. */
static int agree(const char *name) {
    uint8_t p, q;
    memset(&first, 0xAA, sizeof first);
    memset(&second, 0xAA, sizeof second);
    p = proved(&given, &first);
    q = plain(&given, &second);
    if (p == 0 && q == 0 && memcmp(&first, &second, sizeof first) == 0) return 1;
    printf("%s: the two answer differently, or refuse (proved %u, plain %u)\n", name, p, q);
    return 0;
}

static void measure(const char *name, int rounds, double wanted) {
    long n = enough(proved, &first, wanted), m = enough(plain, &second, wanted);
    double best = 0, other = 0;
    int round;
    for (round = 0; round < rounds; round++) {
        double p = spent(proved, &first, n) / (double)n, q = spent(plain, &second, m) / (double)m;
        if (!round || p < best) best = p;
        if (!round || q < other) other = q;
    }
    printf("%s %" PRIu32 " %.0f %.0f\n", name, first.summary[2], best, other);
    fflush(stdout);
}

static int input(const char *folder, const char *name, int rounds, double wanted) {
    given.manifest_len = content(folder, name, "json", given.manifest);
    given.sheet_len = content(folder, name, "bits", given.sheet);
    if (!agree(name)) return 1;
    measure(name, rounds, wanted);
    return 0;
}

/* A frame's bytes: 1 if there is one, cut to what is known to be too long. */
static int frame(uint8_t *into, size_t *length) {
    uint8_t head[4];
    size_t n, i;
    if (fread(head, 1, 4, stdin) != 4) return 0;
    n = head[0] | (size_t)head[1] << 8 | (size_t)head[2] << 16 | (size_t)head[3] << 24;
    *length = n <= LONGEST ? n : LONGEST + 1;
    for (i = 0; i < n; i++) {
        int byte = getchar();
        if (byte == EOF) return 0;
        if (i <= LONGEST) into[i] = (uint8_t)byte;
    }
    return 1;
}

static void tell(uint8_t refusal, const struct lent *out) {
    uint32_t i;
    if (refusal) {
        printf("refused %u\n.\n", refusal);
        return;
    }
    printf("ok files %" PRIu32 " machines %" PRIu32 " trace ", out->summary[0], out->summary[1]);
    if (out->summary[3] == UINT32_MAX)
        printf("-\n");
    else
        printf("%" PRIu32 "\n", out->summary[3]);
    for (i = 0; i < out->summary[2]; i++) {
        if (out->kinds[i] > 3)
            printf("%" PRIu32 " dropped %d\n", i, out->kinds[i] - 3);
        else
            printf("%" PRIu32 " at %" PRId64 " graph %d steps %d\n", i, out->times[i], out->kinds[i], out->steps[i]);
    }
    printf(".\n");
}

static int batch(call *f) {
    while (frame(given.manifest, &given.manifest_len)) {
        if (!frame(given.sheet, &given.sheet_len)) return 1;
        memset(&first, 0xAA, sizeof first);
        tell(f(&given, &first), &first);
    }
    return 0;
}

int main(int words, char **word) {
    if (words == 6 && !strcmp(word[1], "input")) return input(word[2], word[3], atoi(word[4]), atof(word[5]) * 1e6);
    if (words == 3 && !strcmp(word[1], "batch")) return batch(strcmp(word[2], "plain") ? proved : plain);
    fprintf(stderr, "time input FOLDER NAME ROUNDS MILLISECONDS | time batch proved|plain\n");
    return 2;
}
