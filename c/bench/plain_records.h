/* plain_records.h: what plain.c and plain_film.c share: the rules of the records of a caption unit. */
#ifndef PLAIN_RECORDS_H
#define PLAIN_RECORDS_H

#include "plain_area.h"

/* What the rules need of the records before one. */
typedef struct last {
    uint8_t field;
    uint8_t line;
    uint8_t urgent; /* how many records of this field have priority 0 */
} last;

/* 7, 8, 9 ("Picture area"). No record has field 0, so that any first one opens a field. */
static inline uint8_t judge_record(last *before, captions_record r)
{
    uint8_t urgent = before->urgent;
    if (r.field_number == 0) {
        return CAPTIONS_FIELD_OR_LINE;
    }
    if (r.field_number < before->field) {
        return CAPTIONS_ORDER;
    }
    if (r.field_number > before->field) {
        urgent = 0;
    } else if (r.line_offset <= before->line) {
        return CAPTIONS_ORDER;
    }
    if (r.cc_priority == 0 && ++urgent > 4) {
        return CAPTIONS_FIFTH_PRIORITY;
    }
    *before = (last){r.field_number, r.line_offset, urgent};
    return CAPTIONS_ACCEPTED;
}

/* The same of a record that a caller passes, whose numbers may be too large: 15 first. */
static inline uint8_t judge_passed_record(last *before, captions_record r)
{
    if (r.cc_priority > 3 || r.field_number > 3 || r.line_offset > 31) {
        return CAPTIONS_UNHOLDABLE;
    }
    return judge_record(before, r);
}

#endif
