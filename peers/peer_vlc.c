/* VLC: its packetizer of MPEG video, which takes captions out of user data for VLC's caption decoder. */
#include "peer.h"

#include <stdio.h>
#include <stdlib.h>
#include <string.h>

#include <vlc/vlc.h>
#include <vlc_common.h>
#include <vlc_block.h>
#include <vlc_codec.h>
#include <vlc_es.h>
#include <vlc_modules.h>

static libvlc_instance_t *vlc;
const bool peer_reads_scte20 = true;
const bool peer_tells_afd = false;

static struct notes *log_notes;

static void take_log(void *of, int level, const libvlc_log_t *context, const char *format, va_list args)
{
    (void)of, (void)context;
    if (level >= LIBVLC_WARNING)
        note(log_notes, format, args);
}

/* An instance begins with its VLC object, from which the packetizer's is made. */
static decoder_t *open_packetizer(void)
{
    libvlc_int_t *root = *(libvlc_int_t **)vlc;
    decoder_t *d = vlc_object_create(root, sizeof *d);
    if (!d)
        exit(2);
    es_format_Init(&d->fmt_in, VIDEO_ES, VLC_CODEC_MPGV);
    es_format_Init(&d->fmt_out, VIDEO_ES, 0);
    d->p_module = module_need(d, "packetizer", NULL, false);
    if (!d->p_module || !d->pf_packetize || !d->pf_get_cc) {
        fprintf(stderr, "VLC has no packetizer for MPEG video\n");
        exit(2);
    }
    return d;
}

static void close_packetizer(decoder_t *d)
{
    module_unneed(d, d->p_module);
    es_format_Clean(&d->fmt_in);
    es_format_Clean(&d->fmt_out);
    vlc_object_release(d);
}

const char *peer_name(void)
{
    static char name[80];
    if (name[0])
        return name;
    const char *options[] = { "--no-plugins-cache", "--quiet" };
    vlc = libvlc_new(2, options);
    if (!vlc) {
        fprintf(stderr, "VLC does not start\n");
        exit(2);
    }
    libvlc_log_set(vlc, take_log, NULL);
    decoder_t *d = open_packetizer();
    snprintf(name, sizeof name, "VLC %s, %s", libvlc_get_version(), module_get_object(d->p_module));
    close_packetizer(d);
    return name;
}

/* The captions that stand with the pictures that came out last. */
static void take_captions(decoder_t *d, struct answer *a)
{
    decoder_cc_desc_t desc;
    block_t *cc = d->pf_get_cc(d, &desc);
    if (!cc)
        return;
    a->captions = true;
    for (size_t i = 0; i + 2 < cc->i_buffer && a->n < MAX_TRIPLES; i += 3)
        memcpy(a->triples[a->n++], cc->p_buffer + i, 3);
    block_Release(cc);
}

/* Runs the packetizer until it has no more to give. Each block is a coded picture, in coded order. */
static void take_pictures(decoder_t *d, block_t **in, struct answer *answers, size_t n, size_t *k)
{
    block_t *out;
    while ((out = d->pf_packetize(d, in))) {
        struct answer spare = { 0 };
        struct answer *a = *k < n ? &answers[*k] : &spare;
        a->frame = true;
        take_captions(d, a);
        (*k)++;
        block_ChainRelease(out);
    }
}

void peer_read(const struct bytes *pictures, const bool *second, size_t n, struct answer *answers, struct notes *notes)
{
    (void)second;
    decoder_t *d = open_packetizer();
    size_t k = 0;
    log_notes = notes;
    for (size_t i = 0; i < n; i++) {
        block_t *b = block_Alloc(pictures[i].len);
        memcpy(b->p_buffer, pictures[i].data, pictures[i].len);
        b->i_dts = VLC_TICK_0 + (vlc_tick_t)i * 40000;
        take_pictures(d, &b, answers, n, &k);
    }
    take_pictures(d, NULL, answers, n, &k);
    log_notes = NULL;
    close_packetizer(d);
}
