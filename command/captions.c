/* captions: the command. It takes words, moves bytes and prints; all that is known of a carriage is in the library. */
#include "files.h"
#include "help.h"
#include "say.h"

#include <errno.h>
#include <string.h>

/* What the call prints, or why it prints nothing. */
static outcome answer(const options *o, bytes *out)
{
    if (o->is_version)
        put_version(out);
    else if (o->is_help && o->verb == NULL)
        put_usage(out);
    else if (o->is_help)
        put_help(o->verb, out);
    else
        return o->verb->run(o, out);
    return accepted();
}

/* Writes what was printed. A run of film that answers each line has something to print although it is refused. */
static outcome hand_over(const options *o, const bytes *out, outcome ended)
{
    if (!is_accepted(ended) && !(o->is_each && ended.status == STATUS_REFUSED))
        return ended;
    if (out->is_short)
        return failed(ENOMEM, NULL);
    bool is_file = o->output != NULL && strcmp(o->output, "-") != 0 && !o->is_help;
    int error = is_file ? write_file(o->output, out) : write_output(out);
    return error == 0 ? ended : failed(error, is_file ? o->output : "standard output");
}

int main(int count, char **words)
{
    options o;
    bytes out = { 0 };
    guard_streams();
    outcome ended = options_of(count > 0 ? count - 1 : 0, words + 1, &o);
    if (is_accepted(ended))
        ended = hand_over(&o, &out, answer(&o, &out));
    release(&out);
    return is_accepted(ended) ? STATUS_ACCEPTED : say(&o, ended);
}
