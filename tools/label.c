#include "label.h"

#include <string.h>

struct character {
    uint32_t code;
    size_t bytes;
};

/* Whether XML may hold it, and a line of text should. */
static int is_of_text(uint32_t code)
{
    int control = code < ' ' || (0x7F <= code && code < 0xA0);
    int surrogate = 0xD800 <= code && code <= 0xDFFF;
    return !control && !surrogate && code != 0xFFFE && code != 0xFFFF && code <= 0x10FFFF;
}

/* The character that a text begins with; a question mark for a byte that is of none. */
static struct character first_of(const char *text)
{
    static const uint32_t least[] = { 0, 0, 0x80, 0x800, 0x10000 };
    static const struct character none = { '?', 1 };
    const unsigned char *t = (const unsigned char *)text;
    size_t bytes = t[0] < 0x80 ? 1 : t[0] >> 5 == 6 ? 2 : t[0] >> 4 == 14 ? 3 : t[0] >> 3 == 30 ? 4 : 0;
    if (bytes == 0)
        return none;
    struct character c = { bytes == 1 ? t[0] : t[0] & 0x7Fu >> bytes, bytes };
    for (size_t n = 1; n < bytes; n++) {
        if (t[n] >> 6 != 2)
            return none;
        c.code = c.code << 6 | (t[n] & 0x3F);
    }
    return c.code >= least[bytes] && is_of_text(c.code) ? c : none;
}

static double width(uint32_t code)
{
    if (code >= 0x1100)
        return 1;
    if (code < 0x80 && strchr(" !'(),-./:;I[]fijlrt|", (int)code) != NULL)
        return .4;
    if (code < 0x80 && strchr("%@MWmw", (int)code) != NULL)
        return 1;
    return 'A' <= code && code <= 'Z' ? .72 : .64;
}

static void put_character(FILE *to, const char *text, struct character c)
{
    if (c.code < 0x80 && strchr("<>&'\"", (int)c.code) != NULL)
        fprintf(to, "&#%u;", (unsigned)c.code);
    else if (c.bytes > 1)
        fwrite(text, 1, c.bytes, to);
    else
        fputc((int)c.code, to);
}

const char *grouped(uint64_t value, char *label)
{
    char digits[24];
    int length = snprintf(digits, sizeof digits, "%llu", (unsigned long long)value), to = 0;
    for (int i = 0; i < length; i++) {
        if (i > 0 && (length - i) % 3 == 0)
            label[to++] = ',';
        label[to++] = digits[i];
    }
    label[to] = 0;
    return label;
}

const char *clocked(double seconds, int decimals, char *label)
{
    uint64_t second = 1;
    for (int i = 0; i < decimals; i++)
        second *= 10;
    double bounded = !(seconds > 0) ? 0 : seconds < 1e12 ? seconds : 1e12;
    uint64_t parts = (uint64_t)(bounded * (double)second + .5);
    int length = snprintf(label, LABEL_BYTES, "%02llu:%02llu", (unsigned long long)(parts / second / 60),
                          (unsigned long long)(parts / second % 60));
    if (decimals > 0)
        snprintf(label + length, (size_t)(LABEL_BYTES - length), ".%0*llu", decimals, (unsigned long long)(parts % second));
    return label;
}

double text_width(const char *text, double size)
{
    double sum = 0;
    for (struct character c; *text != 0; text += c.bytes) {
        c = first_of(text);
        sum += width(c.code);
    }
    return sum * size;
}

/* Writes characters for as long as there is room. Returns those left. */
static const char *put_some(FILE *to, const char *text, double size, double room)
{
    for (struct character c; *text != 0; text += c.bytes) {
        c = first_of(text);
        room -= width(c.code) * size;
        if (room < 0)
            break;
        put_character(to, text, c);
    }
    return text;
}

void put_text(FILE *to, const char *text)
{
    for (struct character c; *text != 0; text += c.bytes) {
        c = first_of(text);
        put_character(to, text, c);
    }
}

void put_shortened(FILE *to, const char *text, double size, double room)
{
    double left = text_width(text, size);
    if (left > room) {
        double half = (room - size) / 2;
        const char *rest = put_some(to, text, size, half);
        fputs("&#8230;", to);
        for (left = text_width(rest, size); *rest != 0 && left > half;) {
            struct character c = first_of(rest);
            left -= width(c.code) * size;
            rest += c.bytes;
        }
        text = rest;
    }
    put_text(to, text);
}

static const char *skip_blanks(const char *text)
{
    return text + strspn(text, " \t\r\n");
}

const char *put_line(FILE *to, const char *words, double size, double room)
{
    double used = 0;
    for (words = skip_blanks(words); *words != 0; words = skip_blanks(words)) {
        char word[200];
        size_t length = strcspn(words, " \t\r\n");
        snprintf(word, sizeof word, "%.*s", (int)(length < sizeof word ? length : sizeof word - 1), words);
        double blank = used > 0 ? width(' ') * size : 0, wide = text_width(word, size);
        if (used > 0 && used + blank + wide > room)
            break;
        if (to != NULL && used > 0)
            fputc(' ', to);
        if (to != NULL)
            put_shortened(to, word, size, room);
        used += blank + wide;
        words += length;
    }
    return words;
}
