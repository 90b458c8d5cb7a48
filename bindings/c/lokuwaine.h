/* The proved calendar engine, for C. Link liblokuwaine.a.
 *
 * Each call answers its kind; the value goes to *value, and the line at fault to *line: of refusals 6 to 10,
 * counted from 1 after unfolding; 0 for all else. Of 10 it is the component's BEGIN line; of 7, where the file
 * stops too early, one more than there are lines.
 * No call reads a clock, allocates, or keeps a pointer. Any bytes at all are answered: nothing has to be checked first.
 * Buffers that are written (work, out, value, line) must not overlap anything else that is handed in. */
#ifndef LOKUWAINE_H
#define LOKUWAINE_H

#include <stddef.h>
#include <stdint.h>

#ifdef __cplusplus
extern "C" {
#endif

/* Kinds: what *value then is. */
#define LOKUWAINE_VERDICT 0u /* 1 for a match, 0 for none */
#define LOKUWAINE_LENGTH 1u  /* the report's length: that many bytes stand first in out */
#define LOKUWAINE_REFUSAL 2u /* the refusal's number, 1 to 12 */

/* A work buffer of this many bytes is enough for every calendar, an output of this many for every report. */
#define LOKUWAINE_WORK 65536
#define LOKUWAINE_OUTPUT 35006

/* Does the calendar match the query? offset: seconds that floating times are ahead of UTC. */
uint64_t lokuwaine_match(const uint8_t *cal, size_t cal_len, const uint8_t *query, size_t query_len,
                         int64_t offset, uint8_t *work, size_t work_len, uint64_t *value, uint64_t *line);

/* Which seconds from start up to, but not including, end are taken? The report goes to out. */
uint64_t lokuwaine_report(const uint8_t *cal, size_t cal_len, uint64_t start, uint64_t end, int64_t offset,
                          uint64_t stamp, uint8_t *work, size_t work_len, uint8_t *out, size_t out_len,
                          uint64_t *value, uint64_t *line);

#ifdef __cplusplus
}
#endif

#endif
