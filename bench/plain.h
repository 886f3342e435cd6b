/* The plain merge: the same arguments, answers and promises of memory as narguvesh_merge (include/narguvesh.h). */
#ifndef PLAIN_H
#define PLAIN_H

#include <stddef.h>
#include <stdint.h>

#ifdef __cplusplus
extern "C" {
#endif

uint8_t plain_merge(const uint8_t *manifest, size_t manifest_len, const uint8_t *sheet, size_t sheet_len, uint8_t *machines,
                    size_t machines_len, int64_t *times, size_t times_len, uint8_t *kinds, size_t kinds_len, uint16_t *steps,
                    size_t steps_len, uint8_t *matrix, size_t matrix_len, int64_t *readings, size_t readings_len, uint16_t *clocks,
                    size_t clocks_len, uint32_t *summary);

#ifdef __cplusplus
}
#endif

#endif
