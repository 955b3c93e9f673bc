#include "container.h"

#include "hipokuta.h"
#include "shell.h"

#include <stdio.h>
#include <stdlib.h>
#include <string.h>

static const struct container TRANSPORT = { "transport stream", "mpegts", "PID" };
static const struct container PROGRAM = { "program stream", "mpeg", "stream" };

/* Others, by bytes that stand at some place near the front. */
static const struct {
    size_t at;
    const char *bytes;
    struct container is;
} known[] = {
    { 4, "ftyp", { "MP4 or QuickTime file", "mov", NULL } },
    { 4, "moov", { "MP4 or QuickTime file", "mov", NULL } },
    { 4, "mdat", { "MP4 or QuickTime file", "mov", NULL } },
    { 4, "wide", { "MP4 or QuickTime file", "mov", NULL } },
    { 0, "\x1A\x45\xDF\xA3", { "Matroska file", "matroska", NULL } },
    { 8, "AVI ", { "AVI file", "avi", NULL } },
    { 0, "\x06\x0E\x2B\x34", { "MXF file", "mxf", NULL } },
    { 0, "\x30\x26\xB2\x75", { "ASF file", "asf", NULL } },
    { 0, "OggS", { "Ogg file", NULL, NULL } },
    { 8, "WAVE", { "WAVE file", NULL, NULL } },
    { 0, "\x1F\x8B\x08", { "gzip file", NULL, NULL } },
    { 0, "PK\x03\x04", { "zip file", NULL, NULL } },
    { 0, "\xFD" "7zXZ", { "xz file", NULL, NULL } },
    { 0, "\x28\xB5\x2F\xFD", { "zstd file", NULL, NULL } },
    { 0, "\x89PNG", { "PNG picture", NULL, NULL } },
    { 0, "\xFF\xD8\xFF", { "JPEG picture", NULL, NULL } },
    { 0, "%PDF", { "PDF file", NULL, NULL } },
    { 257, "ustar", { "tar file", NULL, NULL } },
};

/* Transport packets are looked for this far from the front; pack headers further. */
enum { PACKETS_WITHIN = 1 << 16, PACKS_WITHIN = 1 << 20, SYNC = 0x47, SYNCS = 5 };
enum { PACK = 0xBA, PACK_BYTES = 14, OLD_PACK_BYTES = 12 };

/* Packets of this size from here on: five in a row, or three or more up to the end. */
static int packets_at(const struct stream *s, size_t at, size_t size)
{
    size_t found = 0;
    while (found < SYNCS && at < s->length && s->bytes[at] == SYNC) {
        found++;
        at += size;
    }
    return found == SYNCS || (found >= 3 && at >= s->length);
}

/* Bytes from one packet to the next where packets begin: of 188 bytes, also with a time stamp before or a checksum after each; 0
 * where none do. `at` is set to the first's place. */
static size_t find_packets(const struct stream *s, size_t *at)
{
    static const size_t sizes[] = { 188, 192, 204 };
    for (*at = 0; *at < s->length && *at < PACKETS_WITHIN; ++*at)
        for (size_t i = 0; i < sizeof sizes / sizeof *sizes; i++)
            if (packets_at(s, *at, sizes[i]))
                return sizes[i];
    return 0;
}

static int is_transport(const struct stream *s)
{
    size_t at;
    return find_packets(s, &at) != 0;
}

/* A pack header with another system code right after it. */
static int is_pack(const struct stream *s, size_t at)
{
    if (code_at(s, at) != PACK || at + PACK_BYTES > s->length)
        return 0;
    size_t length = (s->bytes[at + 4] & 0xC0) == 0x40 ? PACK_BYTES + (s->bytes[at + 13] & 7u) : OLD_PACK_BYTES;
    struct stream after = part(s, at, s->length);
    size_t next = next_code(&after, length);
    return next == length && code_at(&after, next) >= SYSTEM;
}

/* Where the packet of a program stream at `at` ends, zero bytes before it passed over; `at` itself where none stands there. */
static size_t packet_end(const struct stream *s, size_t at)
{
    size_t from = at;
    while (from < s->length && s->bytes[from] == 0)
        from++;
    from -= from < s->length && from >= at + 2 ? 2 : 0;
    struct stream p = part(s, from, s->length);
    if (p.length < PACK_BYTES)
        return s->length;
    if (memcmp(p.bytes, "\0\0\1", 3) != 0 || code_at(&p, 0) < SYSTEM)
        return at;
    if (code_at(&p, 0) == PACK)
        return from + ((p.bytes[4] & 0xC0) == 0x40 ? PACK_BYTES + (p.bytes[13] & 7u) : OLD_PACK_BYTES);
    return from + (code_at(&p, 0) == SYSTEM ? CODE_BYTES : 6 + 256u * p.bytes[4] + p.bytes[5]);
}

/* A packet of a program stream at the front, and another right after it; some recorders write no packs. */
static int are_packets(const struct stream *s)
{
    size_t end = packet_end(s, 0);
    return end > 0 && end + PACK_BYTES <= s->length && packet_end(s, end) > end;
}

static int is_program(const struct stream *s)
{
    struct stream front = part(s, 0, s->length < PACKS_WITHIN ? s->length : PACKS_WITHIN);
    size_t at = next_code(&front, 0);
    if (at == 0 && (code_at(&front, at) == PACK || are_packets(&front)))
        return 1;
    while (at < front.length && !is_pack(&front, at))
        at = next_code(&front, at + CODE_BYTES);
    return at < front.length;
}

const struct container *container_of(const struct stream *s)
{
    if (code_at(s, next_code(s, 0)) == SEQUENCE && next_code(s, 0) == 0)
        return NULL;
    for (size_t i = 0; i < sizeof known / sizeof *known; i++) {
        size_t length = strlen(known[i].bytes);
        if (known[i].at + length <= s->length && memcmp(s->bytes + known[i].at, known[i].bytes, length) == 0)
            return &known[i].is;
    }
    if (is_transport(s))
        return &TRANSPORT;
    return is_program(s) ? &PROGRAM : NULL;
}

uint8_t told_standard(const struct stream *s)
{
    size_t sequence = find_code(s, SEQUENCE);
    size_t from = sequence < s->length ? sequence : find_code(s, PICTURE);
    int code = from < s->length ? code_at(s, next_code(s, from + CODE_BYTES)) : -1;
    if (code == EXTENSION)
        return VBV_MPEG2;
    return sequence < s->length && code >= 0 ? VBV_MPEG1 : 0;
}

/* That it is a container, and none that is taken apart. */
static int closed(const struct container *c, struct input *in)
{
    return add_why(in, "%s, not an MPEG video stream, and none can be taken out. Give the video stream itself.", c->name);
}

#ifndef HAVE_AVFORMAT

const char CONTAINERS[] = "without libavformat";

/* A name without its ending; "video" for standard input. */
static int stem(const char *name, const char **from)
{
    const char *slash = strrchr(name, '/'), *dot = strrchr(name, '.');
    *from = strcmp(name, "-") == 0 ? "video" : name;
    int ends = *from == name && dot != NULL && dot != name && (slash == NULL || dot > slash + 1);
    return (int)(ends ? dot - name : (ptrdiff_t)strlen(*from));
}

/* ffmpeg's word for the video: the first, or --stream's. */
static const char *map_word(const char *which, char *text, size_t room)
{
    char *end;
    unsigned long n = which != NULL ? strtoul(which, &end, 0) : 1;
    if (which != NULL && (strncmp(which, "0x", 2) == 0 || strncmp(which, "0X", 2) == 0))
        snprintf(text, room, "0:i:0x%lx", n);
    else
        snprintf(text, room, "0:v:%lu", n > 0 ? n - 1 : 0);
    return text;
}

/* The command that takes the video out. */
int unpack(const char *name, const char *which, const struct container *c, struct input *in)
{
    char from[WORD_BYTES], to[WORD_BYTES], path[4200], map[40];
    const char *front;
    int length = stem(name, &front);
    if (c->format == NULL)
        return closed(c, in);
    snprintf(path, sizeof path, "%s%.*s.m2v", begins_like_option(name) ? "./" : "", length, front);
    add_why(in, "%s, not an MPEG video stream, and this program was built without libavformat. Take the video out: ", c->name);
    add_why(in, "ffmpeg -i %s -map %s -c copy -f mpeg2video %s", shell_word(name, from, sizeof from),
            map_word(which, map, sizeof map), shell_word(path, to, sizeof to));
    return which != NULL ? 2 : add_why(in, "   (0:v:1 takes the second video, if there are two)");
}

#else

#include <libavformat/avformat.h>

const char CONTAINERS[] = "with libavformat";

enum { BUFFER_BYTES = 1 << 16 };

/* The bytes that libavformat reads. */
struct source_bytes {
    struct stream s;
    size_t at;
};

/* A video stream that was found. */
struct track {
    int id, mpeg; /* mpeg: MPEG-1 or MPEG-2 video */
    const char *codec;
    uint8_t *bytes;
    size_t length, room, damaged;
};

struct tracks {
    struct track *of;
    size_t count;
    size_t faults; /* of the container, whatever the track */
};

/* What libavformat calls an error is counted, where it is about a container. */
static void count_error(void *context, int level, const char *format, va_list values)
{
    (void)format;
    (void)values;
    if (level <= AV_LOG_ERROR && context != NULL && *(const AVClass **)context == avformat_get_class()) {
        size_t *faults = ((AVFormatContext *)context)->opaque;
        if (faults != NULL)
            ++*faults;
    }
}

/* How often a program stream's packets do not follow one another; libavformat passes over that without a word. */
static size_t count_gaps(const struct stream *s)
{
    size_t gaps = 0;
    for (size_t at = 0; at + PACK_BYTES <= s->length;) {
        size_t end = packet_end(s, at);
        if (end == at) {
            gaps++;
            do
                end = next_code(s, end + 1);
            while (end < s->length && code_at(s, end) != PACK);
        }
        at = end;
    }
    return gaps;
}

static int read_bytes(void *opaque, uint8_t *to, int size)
{
    struct source_bytes *from = opaque;
    size_t left = from->s.length - from->at, count = left < (size_t)size ? left : (size_t)size;
    if (count == 0)
        return AVERROR_EOF;
    memcpy(to, from->s.bytes + from->at, count);
    from->at += count;
    return (int)count;
}

static int64_t seek_bytes(void *opaque, int64_t offset, int whence)
{
    struct source_bytes *from = opaque;
    int64_t length = (int64_t)from->s.length, at = offset;
    if ((whence & ~AVSEEK_FORCE) == AVSEEK_SIZE)
        return length;
    if ((whence & ~AVSEEK_FORCE) == SEEK_CUR)
        at += (int64_t)from->at;
    else if ((whence & ~AVSEEK_FORCE) == SEEK_END)
        at += length;
    if (at < 0 || at > length)
        return AVERROR(EINVAL);
    from->at = (size_t)at;
    return at;
}

/* Opens the container, its packets left as they are. NULL where it cannot be read. */
static AVFormatContext *open_container(const struct container *c, struct source_bytes *from, size_t *faults)
{
    AVFormatContext *f = avformat_alloc_context();
    void *buffer = av_malloc(BUFFER_BYTES);
    AVIOContext *io = buffer != NULL ? avio_alloc_context(buffer, BUFFER_BYTES, 0, from, read_bytes, NULL, seek_bytes) : NULL;
    if (f == NULL || io == NULL) {
        if (io == NULL)
            av_free(buffer);
        avio_context_free(&io);
        avformat_free_context(f);
        return NULL;
    }
    f->pb = io;
    f->opaque = faults;
    f->flags |= AVFMT_FLAG_CUSTOM_IO | AVFMT_FLAG_NOPARSE | AVFMT_FLAG_NOFILLIN;
    if (avformat_open_input(&f, NULL, av_find_input_format(c->format), NULL) == 0)
        return f;
    av_freep(&io->buffer);
    avio_context_free(&io);
    return NULL;
}

static void close_container(AVFormatContext *f)
{
    AVIOContext *io = f->pb;
    avformat_close_input(&f);
    av_freep(&io->buffer);
    avio_context_free(&io);
}

/* The track of a stream of the container, made where it is new. NULL where memory does not suffice. */
static struct track *track_at(struct tracks *t, size_t index)
{
    if (index >= t->count) {
        struct track *more = realloc(t->of, (index + 1) * sizeof *more);
        if (more == NULL)
            return NULL;
        memset(more + t->count, 0, (index + 1 - t->count) * sizeof *more);
        t->of = more;
        t->count = index + 1;
    }
    return t->of + index;
}

static int append(struct track *t, const uint8_t *bytes, size_t length)
{
    if (length > t->room - t->length) {
        size_t room = 2 * t->room > t->length + length ? 2 * t->room : t->length + length;
        uint8_t *more = realloc(t->bytes, room);
        if (more == NULL)
            return 1;
        t->bytes = more;
        t->room = room;
    }
    memcpy(t->bytes + t->length, bytes, length);
    t->length += length;
    return 0;
}

static int take_packet(const AVFormatContext *f, const AVPacket *p, struct tracks *t)
{
    if (p->stream_index < 0 || f->streams[p->stream_index]->codecpar->codec_type != AVMEDIA_TYPE_VIDEO || p->size <= 0)
        return 0;
    struct track *to = track_at(t, (size_t)p->stream_index);
    if (to == NULL)
        return 1;
    to->damaged += (p->flags & AV_PKT_FLAG_CORRUPT) != 0;
    return append(to, p->data, (size_t)p->size);
}

/* Reads every packet. Returns 0, or 1 where memory does not suffice. */
static int take_packets(AVFormatContext *f, struct tracks *t)
{
    AVPacket *packet = av_packet_alloc();
    int bad = packet == NULL, got = 0;
    while (!bad && (got = av_read_frame(f, packet)) >= 0) {
        bad = take_packet(f, packet, t);
        av_packet_unref(packet);
    }
    av_packet_free(&packet);
    t->faults += got != AVERROR_EOF;
    for (size_t i = 0; !bad && i < t->count; i++) {
        enum AVCodecID codec = f->streams[i]->codecpar->codec_id;
        t->of[i].id = f->streams[i]->id;
        t->of[i].codec = avcodec_get_name(codec);
        t->of[i].mpeg = codec == AV_CODEC_ID_MPEG1VIDEO || codec == AV_CODEC_ID_MPEG2VIDEO;
    }
    return bad;
}

static int is_choice(const struct track *t)
{
    return t->mpeg && t->length > 0;
}

static const char *video_name(const struct track *t)
{
    struct stream s = { t->bytes, t->length };
    uint8_t standard = told_standard(&s);
    return standard == VBV_MPEG2 ? "MPEG-2 video" : standard == VBV_MPEG1 ? "MPEG-1 video" : "MPEG video";
}

/* The number of a stream in its container: a PID, or the code of a program stream's packets, which has a prefix here. */
static unsigned number_of(const struct track *t)
{
    return (unsigned)t->id & 0xFFFF & (t->id >= 0x1BC && t->id <= 0x1FF ? 0xFF : ~0u);
}

/* "transport stream, PID 0x100, MPEG-2 video" */
static void describe(const struct container *c, const struct track *t, char *text, size_t room)
{
    if (c->word != NULL)
        snprintf(text, room, "%s, %s 0x%X, %s", c->name, c->word, number_of(t), video_name(t));
    else
        snprintf(text, room, "%s, %s", c->name, video_name(t));
}

/* Whether `which` names the track that is the n-th choice, from 1. */
static int is_named(const struct track *t, size_t n, const char *which)
{
    char *end;
    unsigned long value = strtoul(which, &end, 0);
    int hexadecimal = strncmp(which, "0x", 2) == 0 || strncmp(which, "0X", 2) == 0;
    return *which != 0 && *end == 0 && value == (hexadecimal ? number_of(t) : n);
}

static int list_choices(const struct container *c, const struct tracks *t, const char *which, struct input *in)
{
    size_t n = 0;
    char text[160];
    if (which != NULL)
        add_why(in, "there is no MPEG video stream %s in it; choose one (only MPEG videos are counted):", which);
    else
        add_why(in, "there are several MPEG video streams in it; choose one:");
    for (size_t i = 0; i < t->count; i++) {
        if (is_choice(t->of + i)) {
            describe(c, t->of + i, text, sizeof text);
            add_why(in, "\n  --stream %zu   %s, %zu bytes", ++n, text, t->of[i].length);
        }
    }
    return 2;
}

/* Whether packets of a transport stream are scrambled. */
static int is_scrambled(const struct stream *s)
{
    size_t at, size = find_packets(s, &at), scrambled = 0;
    for (; size > 0 && at + 4 <= s->length; at += size)
        scrambled += s->bytes[at] == SYNC && (s->bytes[at + 3] & 0xC0) != 0;
    return scrambled > 0;
}

/* What there is in place of MPEG video. */
static int no_video(const struct container *c, const struct track *other, struct input *in)
{
    if (other != NULL)
        return add_why(in, "%s, its video %s; only MPEG-1 and MPEG-2 video can be taken", c->name, other->codec);
    if (c == &TRANSPORT && is_scrambled(&in->stream))
        return add_why(in, "%s, its packets scrambled, so that no video can be read. Record it unscrambled.", c->name);
    return add_why(in, "%s, and no video is in it. Give the recording that has the video.", c->name);
}

/* Hands over one track's bytes. */
static void hand_over(const struct container *c, struct track *t, size_t faults, struct input *in)
{
    describe(c, t, in->about, sizeof in->about);
    in->damaged = t->damaged + faults + (c == &PROGRAM ? count_gaps(&in->stream) : 0);
    in->stream = (struct stream){ t->bytes, t->length };
    free(in->held);
    in->held = t->bytes;
    t->bytes = NULL;
}

static int choose(const char *which, const struct container *c, struct tracks *t, struct input *in)
{
    size_t choices = 0;
    struct track *chosen = NULL, *other = NULL;
    for (size_t i = 0; i < t->count; i++) {
        if (!is_choice(t->of + i)) {
            other = t->of[i].length > 0 ? t->of + i : other;
            continue;
        }
        choices++;
        if (which == NULL || is_named(t->of + i, choices, which))
            chosen = t->of + i;
    }
    if (choices == 0)
        return no_video(c, other, in);
    if (chosen == NULL || (which == NULL && choices > 1))
        return list_choices(c, t, which, in);
    hand_over(c, chosen, t->faults, in);
    return 0;
}

int unpack(const char *name, const char *which, const struct container *c, struct input *in)
{
    struct source_bytes from = { in->stream, 0 };
    struct tracks t = { NULL, 0, 0 };
    (void)name;
    if (c->format == NULL)
        return closed(c, in);
    av_log_set_callback(count_error);
    AVFormatContext *f = open_container(c, &from, &t.faults);
    if (f == NULL)
        return add_why(in, "%s that cannot be read: it is cut off or damaged. Give the whole recording.", c->name);
    int status = take_packets(f, &t) != 0 ? add_why(in, "no memory for its video") : choose(which, c, &t, in);
    close_container(f);
    for (size_t i = 0; i < t.count; i++)
        free(t.of[i].bytes);
    free(t.of);
    return status;
}

#endif
