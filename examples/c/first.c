/* A lab kit's first program: merges manifest.json (absent: none) and sheet.bits of a folder, and writes the lines that ./merge writes.
   README.md beside it says how it is built. */
#include <inttypes.h>
#include <stdio.h>

#include "narguvesh.h"

/* One byte more than is accepted, so that what is too long is seen to be. */
#define ROOM 65537

static uint8_t manifest[ROOM], sheet[ROOM];

/* What the merge is lent: lengths that fit every input. */
static uint8_t machines[NARGUVESH_MACHINES], kinds[NARGUVESH_EVENTS], matrix[NARGUVESH_MATRIX];
static int64_t times[NARGUVESH_EVENTS], readings[NARGUVESH_EVENTS];
static uint16_t steps[NARGUVESH_EVENTS], clocks[NARGUVESH_EVENTS];
static uint32_t summary[NARGUVESH_SUMMARY];

/* A file's bytes, as many as there is room for; none if it is absent. */
static size_t content(const char *folder, const char *name, uint8_t *into) {
    char path[4096];
    FILE *file;
    size_t length;
    snprintf(path, sizeof path, "%s/%s", folder, name);
    file = fopen(path, "rb");
    if (!file) return 0;
    length = fread(into, 1, ROOM, file);
    fclose(file);
    return length;
}

int main(int words, char **word) {
    const char *folder = words > 1 ? word[1] : ".";
    size_t manifest_length = content(folder, "manifest.json", manifest), sheet_length = content(folder, "sheet.bits", sheet);
    uint8_t refusal = narguvesh_merge(manifest, manifest_length, sheet, sheet_length, machines, NARGUVESH_MACHINES, times, NARGUVESH_EVENTS,
                                      kinds, NARGUVESH_EVENTS, steps, NARGUVESH_EVENTS, matrix, NARGUVESH_MATRIX, readings, NARGUVESH_EVENTS,
                                      clocks, NARGUVESH_EVENTS, summary);
    uint32_t i;
    if (refusal) {
        printf("refused %u\n", refusal);
        return 1;
    }
    printf("ok files %" PRIu32 " machines %" PRIu32 " trace ", summary[NARGUVESH_FILES], summary[NARGUVESH_COUNT]);
    if (summary[NARGUVESH_TRACE] == NARGUVESH_UNTRACED)
        printf("-\n");
    else
        printf("%" PRIu32 "\n", summary[NARGUVESH_TRACE]);
    for (i = 0; i < summary[NARGUVESH_LISTED]; i++) {
        if (kinds[i] >= NARGUVESH_UNRELATED)
            printf("%" PRIu32 " dropped %d\n", i, kinds[i] - NARGUVESH_GRAPH_3);
        else
            printf("%" PRIu32 " at %" PRId64 " graph %d steps %d\n", i, times[i], kinds[i], steps[i]);
    }
    return 0;
}
