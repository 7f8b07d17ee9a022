#include "say.h"

#include "files.h"
#include "verbs.h"

#include <string.h>
#include <unistd.h>

const char *meaning_of(uint8_t number)
{
    switch (number) {
    case CAPTIONS_TOO_LONG:
        return "longer than its carriage allows";
    case CAPTIONS_NO_START:
        return "the start code, the flag words or the flags byte with which it must begin are not there";
    case CAPTIONS_START_CODE:
        return "a start code of something else stands in the area";
    case CAPTIONS_SECOND_UNIT:
        return "the area has more than one caption unit of this kind";
    case CAPTIONS_ENDS:
        return "the input ends before an item is complete";
    case CAPTIONS_FIXED:
        return "an identifier, a format, a footer, a framing code or bits that have one value have another";
    case CAPTIONS_FIELD_OR_LINE:
        return "a field number or a line is forbidden";
    case CAPTIONS_ORDER:
        return "a record stands behind one that it must stand before: fields rise, and lines within a field";
    case CAPTIONS_FIFTH_PRIORITY:
        return "a field has more than four records of priority 0";
    case CAPTIONS_SAMPLED_VIDEO:
        return "sampled video is announced, and is not carried";
    case CAPTIONS_WORD:
        return "a word has more than ten bits, or its parity bits are wrong";
    case CAPTIONS_CHECKSUM:
        return "a checksum is wrong";
    case CAPTIONS_LENGTH:
        return "a length or a count fits nothing";
    case CAPTIONS_NO_ROOM:
        return "the result has no room in its output";
    case CAPTIONS_UNHOLDABLE:
        return "a value is out of range, or has no layout";
    case CAPTIONS_ADDITIONAL_DATA:
        return "GA94 announces additional data, which is not carried";
    case CAPTIONS_MARKER:
        return "a marker is not all ones";
    case CAPTIONS_ZEROS:
        return "a bit of the alignment or the stuffing is not zero";
    case CAPTIONS_RUN_IN:
        return "a run-in or framing code of a packet is another";
    case CAPTIONS_NOT_SHOWN:
        return "a record is of field 3, and the picture shows two fields";
    case CAPTIONS_OTHER_LINE:
        return "a record is on another line than the one that is carried";
    case CAPTIONS_UNKNOWN_UNIT:
        return "a data_unit_id is neither that of teletext nor that of stuffing";
    case CAPTIONS_SURPLUS_UNIT:
        return "a data field goes on behind its 31st unit";
    case CAPTIONS_NO_INNER:
        return "a multipacket has no inner packet, or one that is not all there";
    default:
        return "a number that this command does not know";
    }
}

/* `captions: NAME:LINE: `, as far as there is one. */
static void put_origin(bytes *message, const outcome *ended)
{
    put_text(message, "captions: ");
    if (ended->name == NULL)
        return;
    put_text(message, ended->name);
    if (ended->line > 0) {
        put_text(message, ":");
        put_decimal(message, ended->line);
    }
    put_text(message, ": ");
    if (ended->in_payload) {
        put_text(message, "payload ");
        put_decimal(message, ended->payload);
        put_text(message, ": ");
    }
}

static void put_refused(bytes *message, const options *o, const outcome *ended)
{
    put_text(message, "refused ");
    put_decimal(message, ended->refusal.number);
    put_text(message, " at ");
    put_decimal(message, ended->refusal.place);
    put_text(message, "\n");
    put_origin(message, ended);
    put_text(message, meaning_of(ended->refusal.number));
    /* A value that is refused has place 0, whatever the places of the input are. */
    if (ended->refusal.place > 0 && o->verb->measure != NULL) {
        put_text(message, " (");
        put_text(message, o->verb->measure);
        put_text(message, ")");
    }
    put_text(message, "\n");
}

/* A fault of a text needs no word on how to call the command. */
static void put_misused(bytes *message, const options *o, const outcome *ended)
{
    put_origin(message, ended);
    put_text(message, ended->words);
    if (ended->word != NULL) {
        put_text(message, " ");
        put_text(message, ended->word);
    }
    put_text(message, "\n");
    if (ended->name != NULL)
        return;
    put_text(message, "captions: `captions ");
    if (o->verb != NULL) {
        put_text(message, o->verb->name);
        put_text(message, " ");
    }
    put_text(message, "--help` says how to use it\n");
}

static void put_failed(bytes *message, const outcome *ended)
{
    put_origin(message, ended);
    put_text(message, strerror(ended->error));
    put_text(message, "\n");
}

enum status say(const options *o, outcome ended)
{
    bytes message = { 0 };
    switch (ended.status) {
    case STATUS_REFUSED:
        put_refused(&message, o, &ended);
        break;
    case STATUS_MISUSED:
        put_misused(&message, o, &ended);
        break;
    case STATUS_FAILED:
        put_failed(&message, &ended);
        break;
    default:
        break;
    }
    bool is_said = !message.is_short && write_all(STDERR_FILENO, message.at, message.len) == 0;
    release(&message);
    /* A refusal whose number nobody got is no answer. */
    return is_said ? ended.status : STATUS_FAILED;
}
