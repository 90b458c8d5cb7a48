/* One calendar, one match and one report from C, and a calendar that is refused. */
#include <stdio.h>
#include <string.h>

#include "lokuwaine.h"

static uint8_t work[LOKUWAINE_WORK];
static uint8_t out[LOKUWAINE_OUTPUT];

int main(void) {
    const char *calendar = "BEGIN:VCALENDAR\r\nBEGIN:VEVENT\r\nDTSTART:20240311T073000Z\r\nDTEND:20240311T091500Z\r\n"
                           "END:VEVENT\r\nEND:VCALENDAR\r\n";
    /* no range; the texts VCALENDAR and VEVENT; VEVENT below VCALENDAR; no property, no parameter */
    const uint8_t query[] = "\x00\x02\x09VCALENDAR\x06VEVENT\x02\x00\x00\x00\x00\x00\x01\x00\x00\x00";
    uint64_t value, line;

    uint64_t kind = lokuwaine_match((const uint8_t *)calendar, strlen(calendar), query, sizeof query, 0, work, sizeof work,
                                    &value, &line);
    printf("match: kind %u, value %u\n", (unsigned)kind, (unsigned)value);

    kind = lokuwaine_report((const uint8_t *)calendar, strlen(calendar), 1710144000, 1710180000, 0, 1710050400, work,
                            sizeof work, out, sizeof out, &value, &line);
    if (kind == LOKUWAINE_LENGTH) {
        fwrite(out, 1, (size_t)value, stdout);
    }

    const char *damaged = "BEGIN:VCALENDAR\r\nBEGIN:VEVENT\r\nDTSTART:20240230T073000Z\r\nEND:VEVENT\r\nEND:VCALENDAR\r\n";
    kind = lokuwaine_report((const uint8_t *)damaged, strlen(damaged), 1710144000, 1710180000, 0, 1710050400, work,
                            sizeof work, out, sizeof out, &value, &line);
    if (kind == LOKUWAINE_REFUSAL) {
        printf("refused %u, line %u\n", (unsigned)value, (unsigned)line);
    }
    return 0;
}
