#include "script.h"

#include <inttypes.h>
#include <stdio.h>
#include <string.h>

/* Bytes of the UTF-8 character at the front; 0 where it is none. */
static size_t character(const unsigned char *s)
{
    size_t length = s[0] < 0x80 ? 1 : s[0] >= 0xC2 && s[0] < 0xE0 ? 2 : s[0] >= 0xE0 && s[0] < 0xF0 ? 3 : s[0] >= 0xF0 && s[0] < 0xF5 ? 4 : 0;
    for (size_t i = 1; i < length; i++)
        if ((s[i] & 0xC0) != 0x80)
            return 0;
    int bad = (s[0] == 0xE0 && s[1] < 0xA0) || (s[0] == 0xED && s[1] >= 0xA0) || (s[0] == 0xF0 && s[1] < 0x90) ||
              (s[0] == 0xF4 && s[1] >= 0x90);
    return bad ? 0 : length;
}

/* A string of JSON. Bytes that are no UTF-8 are escaped as Python reads them from file names: \udc80 to \udcff. */
static void string(const char *text)
{
    const unsigned char *s = (const unsigned char *)text;
    putchar('"');
    while (*s != 0) {
        size_t length = character(s);
        if (length == 0)
            printf("\\udc%02x", *s++);
        else if (*s == '"' || *s == '\\')
            printf("\\%c", *s++);
        else if (*s < ' ' || *s == 0x7F)
            printf("\\u%04x", *s++);
        else
            s += fwrite(s, 1, length, stdout);
    }
    putchar('"');
}

/* A picture's type; null for one that is none. */
static const char *json_type(uint8_t type)
{
    static const char *const types[] = { "null", "\"I\"", "\"P\"", "\"B\"", "\"D\"" };
    return type < sizeof types / sizeof *types ? types[type] : types[0];
}

static const char *json_flag(int is)
{
    return is ? "true" : "false";
}

static void json_pictures(const struct answer *a)
{
    struct times times = { a, 0, 0 };
    char time[TEXT];
    printf(",\"pictures\":[");
    for (size_t n = 0; n < a->recorded; n++) {
        const struct vbv_record *r = a->records + n;
        struct bits at = next_time(&times);
        printf("%s{\"picture\":%zu,\"byte\":%zu,\"time\":\"%s\",\"seconds\":%.6f,\"type\":%s", n > 0 ? "," : "", n, a->shown[n].at,
               clock_time(at, a->declared.bit_rate, time), in_seconds(at, a->declared.bit_rate), json_type(a->shown[n].type));
        printf(",\"delay\":%" PRIu64 ",\"expected\":%" PRIu64 ",\"data_bits\":%" PRIu64 ",\"before\":%" PRIu64 ",\"after\":%" PRIu64
               ",\"periods\":%" PRIu64 "}", r->delay, r->expected, r->data_bits, r->occupancy_before,
               r->occupancy_before - r->data_bits, r->periods);
    }
    printf("]");
}

static void json_report(const struct vbv_report *r)
{
    printf("{\"bit_rate\":%" PRIu64 ",\"buffer_bits\":%" PRIu64 ",\"pictures\":%" PRIu64 ",\"min_after\":%" PRIu64
           ",\"max_before\":%" PRIu64 "}", r->bit_rate, r->buffer_bits, r->pictures, r->min_after, r->max_before);
}

/* Where and when; null for what is not told. */
static void json_place(const struct told *t)
{
    const struct answer *a = t->answer;
    const struct place *p = &a->place;
    char time[TEXT];
    printf(",\"header\":");
    if (p->header != NULL)
        printf("\"%s\"", p->header);
    else
        printf("null");
    if (p->byte < t->in->stream.length)
        printf(",\"byte\":%zu", p->byte);
    else
        printf(",\"byte\":null");
    if (p->in_picture)
        printf(",\"picture\":%zu,\"type\":%s", p->picture, json_type(a->shown[p->picture].type));
    else
        printf(",\"picture\":null,\"type\":null");
    if (p->timed)
        printf(",\"time\":\"%s\",\"seconds\":%.6f", clock_time(p->due, a->declared.bit_rate, time),
               in_seconds(p->due, a->declared.bit_rate));
    else
        printf(",\"time\":null,\"seconds\":null");
}

static void json_refusal(const struct told *t)
{
    const struct answer *a = t->answer;
    printf("{\"number\":%" PRIu64 ",\"name\":\"%s\"", a->number, vbv_refusal_name(a->number));
    json_place(t);
    if (tells_delays(a))
        printf(",\"coded\":%" PRIu64 ",\"expected\":%" PRIu64, a->refusal.coded, a->refusal.expected);
    else
        printf(",\"coded\":null,\"expected\":null");
    if (a->place.measured)
        printf(",\"bits\":%.6f", in_bits(a->place.over));
    else
        printf(",\"bits\":null");
    printf("}");
}

static void json_cautions(const struct cautions *c)
{
    printf(",\"cautions\":[");
    for (size_t i = 0; i < c->count; i++) {
        printf("%s{\"name\":\"%s\",\"words\":", i > 0 ? "," : "", c->of[i].name);
        string(c->of[i].words);
        printf("}");
    }
    printf("]");
}

void print_json(const struct told *t, int records)
{
    const struct answer *a = t->answer;
    printf("{\"file\":");
    string(t->name);
    printf(",\"container\":");
    if (t->in->about[0] != 0)
        string(t->in->about);
    else
        printf("null");
    printf(",\"standard\":%d,\"film\":%s,\"variable\":%s,\"verdict\":\"%s\",\"report\":", t->standard,
           json_flag(counts_repeats(a->mode)), json_flag(is_variable(a->mode)), a->number == 0 ? "accepted" : "refused");
    if (a->number == 0)
        json_report(&a->report);
    else
        printf("null");
    printf(",\"refusal\":");
    if (a->number != 0)
        json_refusal(t);
    else
        printf("null");
    json_cautions(t->cautions);
    if (records)
        json_pictures(a);
    printf("}\n");
}

void print_json_trouble(const char *name, const char *why)
{
    printf("{\"file\":");
    string(name);
    printf(",\"verdict\":\"trouble\",\"cause\":");
    string(why);
    printf("}\n");
}

/* A name in CSV, in quotes where it needs them. */
static void csv_name(const char *name)
{
    int quoted = strpbrk(name, ",\"\r\n") != NULL;
    if (quoted)
        putchar('"');
    for (; *name != 0; name++) {
        if (*name == '"')
            putchar('"');
        putchar(*name);
    }
    if (quoted)
        putchar('"');
}

void print_csv_trouble(const char *name, const char *why)
{
    char text[sizeof((struct input *)0)->why + 16];
    snprintf(text, sizeof text, "trouble: %s", why);
    csv_name(name);
    printf(",,,,,,,,,,");
    csv_name(text);
    printf(",\n");
}

void print_csv_names(void)
{
    printf("file,picture,byte,time,type,delay,expected,data_bits,before,after,refusal,periods\n");
}

/* The refused picture, with what is told of it; periods are not. */
static void csv_refusal(const struct told *t)
{
    const struct answer *a = t->answer;
    const struct place *p = &a->place;
    char text[TEXT];
    csv_name(t->name);
    if (p->in_picture)
        printf(",%zu", p->picture);
    else
        printf(",");
    if (p->byte < t->in->stream.length)
        printf(",%zu", p->byte);
    else
        printf(",");
    printf(",%s", p->timed ? clock_time(p->due, a->declared.bit_rate, text) : "");
    if (p->in_picture)
        printf(",%c", type_letter(a->shown[p->picture].type));
    else
        printf(",");
    if (tells_delays(a))
        printf(",%" PRIu64 ",%" PRIu64, a->refusal.coded, a->refusal.expected);
    else
        printf(",,");
    if (p->timed) {
        uint64_t data = data_bits(a, p->picture);
        printf(",%" PRIu64 ",%" PRIu64 ",%" PRId64, data, p->held.whole, (int64_t)p->held.whole - (int64_t)data);
    } else {
        printf(",,,");
    }
    printf(",%" PRIu64 " %s,\n", a->number, vbv_refusal_name(a->number));
}

void print_csv(const struct told *t)
{
    const struct answer *a = t->answer;
    struct times times = { a, 0, 0 };
    char time[TEXT];
    for (size_t n = 0; n < a->recorded; n++) {
        const struct vbv_record *r = a->records + n;
        struct bits at = next_time(&times);
        csv_name(t->name);
        printf(",%zu,%zu,%s,%c,%" PRIu64 ",%" PRIu64 ",%" PRIu64 ",%" PRIu64 ",%" PRIu64 ",,%" PRIu64 "\n", n, a->shown[n].at,
               clock_time(at, a->declared.bit_rate, time), type_letter(a->shown[n].type), r->delay, r->expected, r->data_bits,
               r->occupancy_before, r->occupancy_before - r->data_bits, r->periods);
    }
    if (a->number != 0)
        csv_refusal(t);
}
