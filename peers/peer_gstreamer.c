/* GStreamer: the element mpegvideoparse, which puts captions on a buffer as GstVideoCaptionMeta of the type CEA708_RAW. */
#include "peer.h"

#include <stdio.h>
#include <stdlib.h>
#include <string.h>

#include <gst/app/gstappsink.h>
#include <gst/app/gstappsrc.h>
#include <gst/gst.h>
#include <gst/video/video.h>

const bool peer_reads_scte20 = false;
const bool peer_tells_afd = true;

static struct notes *log_notes;

static void note_text(const char *format, ...)
{
    va_list args;
    va_start(args, format);
    note(log_notes, format, args);
    va_end(args);
}

/* Of captions the parser speaks at debug level, so that all its messages about them are taken, and all warnings. */
static void take_log(GstDebugCategory *category, GstDebugLevel level, const gchar *file, const gchar *function, gint line,
                     GObject *object, GstDebugMessage *message, gpointer user)
{
    (void)category, (void)file, (void)function, (void)line, (void)object, (void)user;
    const gchar *text = gst_debug_message_get(message);
    if (level <= GST_LEVEL_WARNING || strstr(text, "SCTE") || strstr(text, "aption"))
        note_text("%s", text);
}

const char *peer_name(void)
{
    static char name[80];
    if (name[0])
        return name;
    gst_init(NULL, NULL);
    gchar *version = gst_version_string();
    snprintf(name, sizeof name, "%s, mpegvideoparse", version);
    g_free(version);
    gst_debug_remove_log_function(gst_debug_log_default);
    gst_debug_add_log_function(take_log, NULL, NULL);
    gst_debug_set_threshold_from_string("*:2,mpegvideoparse:6,videoparseutils:6,codecparsers_mpegvideo:2", TRUE);
    gst_debug_set_active(TRUE);
    return name;
}

static GstElement *start(GstElement **source, GstElement **sink)
{
    GError *error = NULL;
    GstElement *p = gst_parse_launch("appsrc name=in format=time caps=video/mpeg,mpegversion=2,systemstream=false,parsed=false"
                                     " ! mpegvideoparse ! appsink name=out sync=false", &error);
    if (!p) {
        fprintf(stderr, "GStreamer: %s\n", error->message);
        exit(2);
    }
    *source = gst_bin_get_by_name(GST_BIN(p), "in");
    *sink = gst_bin_get_by_name(GST_BIN(p), "out");
    gst_element_set_state(p, GST_STATE_PLAYING);
    return p;
}

static void take_buffer(GstBuffer *b, struct answer *a)
{
    GstVideoAFDMeta *afd = gst_buffer_get_video_afd_meta(b);
    GstVideoCaptionMeta *cc = gst_buffer_get_video_caption_meta(b);
    a->frame = true;
    if (afd)
        a->afd = afd->afd;
    if (!cc || cc->caption_type != GST_VIDEO_CAPTION_TYPE_CEA708_RAW)
        return;
    a->captions = true;
    for (size_t i = 0; i + 2 < cc->size && a->n < MAX_TRIPLES; i += 3)
        memcpy(a->triples[a->n++], cc->data + i, 3);
}

void peer_read(const struct bytes *pictures, const bool *second, size_t n, struct answer *answers, struct notes *notes)
{
    GstElement *source, *sink;
    GstElement *p = start(&source, &sink);
    log_notes = notes;
    for (size_t k = 0; k < n; k++) {
        GstBuffer *b = gst_buffer_new_memdup(pictures[k].data, pictures[k].len);
        GST_BUFFER_PTS(b) = k * GST_SECOND / 25;
        gst_app_src_push_buffer(GST_APP_SRC(source), b);
    }
    gst_app_src_end_of_stream(GST_APP_SRC(source));
    GstSample *sample;
    size_t k = 0; /* the parser keeps the coded order */
    while ((sample = gst_app_sink_try_pull_sample(GST_APP_SINK(sink), 5 * GST_SECOND))) {
        while (k < n && second[k])
            k++;
        if (k < n)
            take_buffer(gst_sample_get_buffer(sample), &answers[k++]);
        gst_sample_unref(sample);
    }
    gst_element_set_state(p, GST_STATE_NULL);
    log_notes = NULL;
    gst_object_unref(source);
    gst_object_unref(sink);
    gst_object_unref(p);
}
