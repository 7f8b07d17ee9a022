/* Carries film into frames: four pictures, shown as ten fields by 3:2 pulldown, become five access units. */
#include "captions.h"

#include <stdio.h>

enum { LINE = 11 }; /* the line offset that is carried: 11 lines behind line 10, where captions stand in NTSC */

/* How a picture is shown. Both flags are in its coding extension, not in its user data. */
typedef struct picture {
    char name;
    uint32_t top_field_first;
    uint32_t repeat_first_field;
} picture;

/* Three fields, two, three, two. Each picture begins with the other side than the one before ended with. */
static const picture film[] = {{'A', 1, 1}, {'B', 0, 0}, {'C', 0, 1}, {'D', 1, 0}};

/* A caption unit's records, one for each display field: its two bytes are the picture's name and the field's number. */
static size_t caption(const picture *shown, captions_record *records)
{
    size_t n = 2 + shown->repeat_first_field;

    for (size_t i = 0; i < n; i++) {
        records[i] = (captions_record){ .cc_priority = 0, .field_number = (uint8_t)(i + 1), .line_offset = LINE,
                                        .cc_data_1 = (uint8_t)shown->name, .cc_data_2 = (uint8_t)('1' + i) };
    }
    return n;
}

static void print_fields(const picture *shown, size_t n)
{
    printf("picture %c shows", shown->name);
    for (size_t i = 0; i < n; i++)
        printf(" %c%zu %s%s", shown->name, i + 1, (i + shown->top_field_first) % 2 == 1 ? "odd" : "even",
               i + 1 < n ? "," : "\n");
}

static void print_side(const char *side, uint8_t valid, uint8_t data_1, uint8_t data_2)
{
    if (valid)
        printf("  %s %c%c", side, data_1, data_2);
    else
        printf("  %s --", side);
}

/* Field 1 of an access unit is the odd one. The padding is 0, so that the units go into a payload as they are. */
static void print_frames(const captions_access_unit *units, size_t m)
{
    static unsigned frames;

    for (size_t i = 0; i < m; i++) {
        printf("    frame %u:", ++frames);
        print_side("odd", units[i].cc_valid_1, units[i].field1_data1, units[i].field1_data2);
        print_side("even", units[i].cc_valid_2, units[i].field2_data1, units[i].field2_data2);
        printf("\n");
    }
}

/* One picture into the run that `state` is of. */
static captions_refusal carry(captions_film *state, const picture *shown)
{
    captions_record records[CAPTIONS_RECORDS];
    captions_access_unit units[CAPTIONS_FILM_UNITS];
    size_t n = caption(shown, records);

    print_fields(shown, n);
    captions_film_sent sent = captions_film_picture(state, shown->top_field_first, shown->repeat_first_field, LINE, 64, 1, n, 0,
                                                    records, units);
    print_frames(units, sent.m);
    return sent.refusal;
}

/* The end of a run, at the end of the film or where it is cut. */
static captions_refusal finish(captions_film *state)
{
    captions_access_unit units[CAPTIONS_FILM_UNITS];
    captions_film_sent sent = captions_film_close(state, units);

    printf("closing sends %zu\n", sent.m);
    print_frames(units, sent.m);
    return sent.refusal;
}

static int give_up(captions_refusal refusal)
{
    printf("refused %d at %zu\n", refusal.number, refusal.place);
    return 1;
}

int main(void)
{
    captions_film state = {0}; /* nothing waits at the start of a run */
    captions_refusal refusal;

    for (size_t i = 0; i < sizeof film / sizeof film[0]; i++) {
        refusal = carry(&state, &film[i]);
        if (refusal.number != CAPTIONS_ACCEPTED)
            return give_up(refusal);
    }
    refusal = finish(&state);
    if (refusal.number != CAPTIONS_ACCEPTED)
        return give_up(refusal);

    /* Here the film is cut behind its first picture, whose third field waits. A picture that is refused keeps it waiting. */
    refusal = carry(&state, &film[0]);
    if (refusal.number != CAPTIONS_ACCEPTED)
        return give_up(refusal);
    captions_record third[CAPTIONS_RECORDS] = {{ .field_number = 3, .line_offset = LINE }};
    captions_access_unit units[CAPTIONS_FILM_UNITS];
    captions_film_sent sent = captions_film_picture(&state, 1, 0, LINE, 64, 1, 1, 0, third, units);
    printf("field 3 of a picture that shows two: refused %d at %zu\n", sent.refusal.number, sent.refusal.place);
    refusal = finish(&state);
    return refusal.number == CAPTIONS_ACCEPTED ? 0 : give_up(refusal);
}
