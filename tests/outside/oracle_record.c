/* The reader's walk over a record: its fields are judged, and not handed out. */
#include "oracle_walk.h"

/* Judges all fields of a record: the first 7, 8 or 9. `magnitudes` are those of the file so far. */
refusal oracle_walk_fields(const uint8_t *file, uint64_t magnitudes, record *rec)
{
    walk w = {.file = file, .rec = rec, .wanted = first_field(rec->code),
              .magnitudes = magnitudes};
    for (size_t at = rec->start; at < rec->end;) {
        line l = oracle_line_at(file, rec->end, at);
        refusal fault = walk_line(&w, l, NULL);
        if (fault.number != 0)
            return fault;
        at = l.next;
    }
    return check_end(&w);
}
