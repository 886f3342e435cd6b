/*
 * Narguvesh: merges the clocks of several traces onto one timeline, by a
 * manifest (JSON) and a sheet of files, sources, snapshots and events.
 *
 * One function, which is proved to answer as crates/merged/specs/Merged.antt
 * defines, on every input. It takes no memory of its own, calls nothing but
 * memcpy and memset, keeps nothing between calls and has no globals, so threads may call
 * it at once with different memory. A call needs less than 64 KiB of stack.
 * The archive is for x86-64 Linux: crates/narguvesh_c/out/libnarguvesh_c.a.
 */
#ifndef NARGUVESH_H
#define NARGUVESH_H

#include <stddef.h>
#include <stdint.h>

#ifdef __cplusplus
extern "C" {
#endif

/*
 * Lengths, in elements, that fit every accepted sheet: with these, refusal 38
 * is never given. Shorter memory serves where the sheet is known to be smaller:
 * `machines` needs an element for each source; `times`, `kinds`, `steps`,
 * `readings` and `clocks` one for each event; `matrix` always all of it.
 */
#define NARGUVESH_MACHINES 32
#define NARGUVESH_EVENTS 6990
#define NARGUVESH_MATRIX 50176

/* The places of the summary. */
#define NARGUVESH_SUMMARY 4
#define NARGUVESH_FILES 0      /* how many files the sheet lists */
#define NARGUVESH_COUNT 1      /* how many machines there are, with the host */
#define NARGUVESH_LISTED 2     /* how many events the sheet lists */
#define NARGUVESH_TRACE 3      /* the number of the trace-time clock, or: */

/* The trace-time clock of a sheet without files: there is none. */
#define NARGUVESH_UNTRACED UINT32_C(0xffffffff)

/* The clocks: domain d (1 to 6) of machine m is 6m + d - 1, file f's own clock is 192 + f. */
#define NARGUVESH_CLOCKS 224

/*
 * The kinds of answer to an event. Kinds 1 to 3 say that it is placed, and by
 * which graph; kinds 4 to 6 that it is dropped, and why.
 */
#define NARGUVESH_GRAPH_1 1    /* placed by the recorded correspondences */
#define NARGUVESH_GRAPH_2 2    /* and by equal REALTIME of any two machines */
#define NARGUVESH_GRAPH_3 3    /* and by equal domains, and private clocks at trace time */
#define NARGUVESH_UNRELATED 4  /* drop 1: no path to trace time */
#define NARGUVESH_RANGE 5      /* drop 2: a value on the path leaves 64 bits */
#define NARGUVESH_EARLY 6      /* drop 3: the time would be negative */

/*
 * The refusals; docs/REFUSALS.md says more of each. The first that applies is
 * returned, in the order of the numbers, but between 3 and 4 the earlier byte
 * decides, and among 26 to 30 the first record.
 *
 * Of the manifest:
 *    1  longer than 65,536 bytes
 *    2  does not start with {"perfetto_manifest"
 *    3  not JSON, bad UTF-8, a lone surrogate, or text after the document
 *    4  a 17th level opens
 *    5  the outermost object has a second member, or its first is no object
 *    6  no `version`
 *    7  a `version` that is not the integer 1
 *    8  a known member twice in one object
 *    9  a known member of the wrong type, or a required member absent
 *   10  a size is broken: entries, items, a path or a machine name
 *   11  an unknown clock name
 *   12  `machine` with `machines`
 *   13  an empty machine name
 *   14  an `id` outside 0 to 4294967295
 *   15  a path in two entries, or an id twice in one `machines`
 *   16  `clocks` without `sync_to`
 *   17  `machine` without `file`
 *   18  `sync_to` without `file`
 *   19  a `file` that names no entry
 *   20  no `machine` where a split file needs one
 *   21  a `machine` that the file does not declare
 *   22  an `offset_ns` that is no integer
 *   23  an `offset_ns` outside -(2^63-1) to 2^63-1
 *   24  a clock related to itself
 * Of the sheet:
 *   25  empty, or longer than 65,536 bytes
 *   26  a record or the end is cut off
 *   27  a kind from 5 to 7, or lower than before
 *   28  a field that no record may have
 *   29  a bit set, or a byte, after the end
 *   30  too many files, sources or snapshots
 *   31  a path twice, or file and id twice
 * Of both together:
 *   32  the sheet has a file, and an entry's path is not in it
 *   33  `clocks` on a container
 *   34  a source's id is not declared in its file's `machines`
 *   35  `machine` on a file with two or more sources
 *   36  a pinned file with a snapshot
 *   37  more than 32 machines
 * Of the lent memory:
 *   38  shorter than the sheet needs
 */
#define NARGUVESH_MERGED 0
#define NARGUVESH_TOO_SHORT 38

/*
 * Merges. Returns 0 if the merge is accepted, else the refusal's number.
 *
 * manifest  JSON bytes; length 0 is "no manifest"
 * sheet     the packed records
 * machines  out: the machine of each source
 * times     out: the time of each event that is placed, 0 if it is dropped
 * kinds     out: the kind of answer to each event, 1 to 6
 * steps     out: how many pairs each placed event's path has, 0 if it is dropped
 * matrix    work memory
 * readings  work memory
 * clocks    work memory
 * summary   out: files, machines, events and the trace-time clock
 *
 * Accepted: the outputs are as above, one element for each source or event in
 * the sheet's order; every element past them is 0, and so is all work memory.
 * Refused: every element of all seven lent memories and of the summary is 0.
 * What the memories held before has no influence.
 *
 * The caller owes: each pointer is not null, even where its length is 0, is
 * aligned for its type, and has as many elements behind it as its length
 * says; memory that is written to overlaps no other memory of the call. The
 * manifest and the sheet are only read, and may overlap each other.
 */
uint8_t narguvesh_merge(const uint8_t *manifest, size_t manifest_length,
                        const uint8_t *sheet, size_t sheet_length,
                        uint8_t *machines, size_t machines_length,
                        int64_t *times, size_t times_length,
                        uint8_t *kinds, size_t kinds_length,
                        uint16_t *steps, size_t steps_length,
                        uint8_t *matrix, size_t matrix_length,
                        int64_t *readings, size_t readings_length,
                        uint16_t *clocks, size_t clocks_length,
                        uint32_t *summary);

#ifdef __cplusplus
}
#endif

#endif
