/* The value of a caption unit in words, as --unit takes it. */
#ifndef UNIT_WORDS_H
#define UNIT_WORDS_H

#include "captions.h"
#include "text.h"

/* As the library takes them. There may be more constructs than have a place: n counts all of them. */
typedef struct told_unit {
    uint32_t reserved;
    uint32_t vbi_data_flag;
    uint64_t z;
    size_t n;
    captions_record records[CAPTIONS_RECORDS];
} told_unit;

typedef struct told_ga94 {
    uint32_t process_em_data_flag;
    uint32_t process_cc_data_flag;
    uint32_t additional_data_flag;
    uint32_t em_data;
    uint64_t z;
    size_t n;
    captions_ga94_record records[CAPTIONS_RECORDS];
} told_ga94;

/* Both take words off a text, and answer whether it tells a value. If it does not, it is left behind the wrong word. */
bool unit_of(part *text, told_unit *told);
bool ga94_of(part *text, told_ga94 *told);

#endif
