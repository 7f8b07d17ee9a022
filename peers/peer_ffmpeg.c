/* FFmpeg: the mpeg2video decoder of libavcodec, which hands captions on as A53 side data of a frame. */
#include "peer.h"

#include <stdio.h>
#include <stdlib.h>
#include <string.h>

#include <libavcodec/avcodec.h>
#include <libavutil/avutil.h>

const bool peer_reads_scte20 = true;
const bool peer_tells_afd = true;

static struct notes *log_notes;

static void take_log(void *of, int level, const char *format, va_list args)
{
    (void)of;
    if (level <= AV_LOG_WARNING)
        note(log_notes, format, args);
}

const char *peer_name(void)
{
    static char name[64];
    snprintf(name, sizeof name, "FFmpeg %s", av_version_info());
    return name;
}

static void check(int ret, const char *what)
{
    if (ret < 0) {
        fprintf(stderr, "FFmpeg: %s: error %d\n", what, ret);
        exit(2);
    }
}

static AVCodecContext *open_decoder(void)
{
    const AVCodec *codec = avcodec_find_decoder(AV_CODEC_ID_MPEG2VIDEO);
    AVCodecContext *c = codec ? avcodec_alloc_context3(codec) : NULL;
    if (!c)
        check(-1, "no mpeg2video decoder");
    c->thread_count = 1;
    c->flags |= AV_CODEC_FLAG_BITEXACT;
    check(avcodec_open2(c, codec, NULL), "open");
    return c;
}

static void take_frame(const AVFrame *f, struct answer *answers, size_t n)
{
    if (f->pts < 0 || (size_t)f->pts >= n)
        return;
    struct answer *a = &answers[f->pts];
    a->frame = true;
    const AVFrameSideData *cc = av_frame_get_side_data(f, AV_FRAME_DATA_A53_CC);
    if (cc) {
        a->captions = true;
        a->n = cc->size / 3 < MAX_TRIPLES ? cc->size / 3 : MAX_TRIPLES;
        memcpy(a->triples, cc->data, 3 * a->n);
    }
    const AVFrameSideData *afd = av_frame_get_side_data(f, AV_FRAME_DATA_AFD);
    if (afd)
        a->afd = afd->data[0];
}

static void take_frames(AVCodecContext *c, AVFrame *f, struct answer *answers, size_t n)
{
    while (avcodec_receive_frame(c, f) >= 0) {
        take_frame(f, answers, n);
        av_frame_unref(f);
    }
}

/* A packet has a whole frame, so that the two fields of one go together, as FFmpeg's own parser joins them. */
static size_t make_packet(AVPacket *p, const struct bytes *pictures, const bool *second, size_t k, size_t n)
{
    size_t used = k + 1 < n && second[k + 1] ? 2 : 1;
    size_t len = pictures[k].len + (used == 2 ? pictures[k + 1].len : 0);
    check(av_new_packet(p, (int)len), "packet");
    memcpy(p->data, pictures[k].data, pictures[k].len);
    if (used == 2)
        memcpy(p->data + pictures[k].len, pictures[k + 1].data, pictures[k + 1].len);
    p->pts = (int64_t)k;
    return used;
}

void peer_read(const struct bytes *pictures, const bool *second, size_t n, struct answer *answers, struct notes *notes)
{
    log_notes = notes;
    av_log_set_callback(take_log);
    AVCodecContext *c = open_decoder();
    AVPacket *p = av_packet_alloc();
    AVFrame *f = av_frame_alloc();
    if (!p || !f)
        check(-1, "memory");
    for (size_t k = 0; k < n;) {
        k += make_packet(p, pictures, second, k, n);
        avcodec_send_packet(c, p); /* an error shows in the log and as a missing frame */
        av_packet_unref(p);
        take_frames(c, f, answers, n);
    }
    avcodec_send_packet(c, NULL);
    take_frames(c, f, answers, n);
    av_frame_free(&f);
    av_packet_free(&p);
    avcodec_free_context(&c);
    log_notes = NULL;
}
