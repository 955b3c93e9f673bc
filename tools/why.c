#include "why.h"

#include <stdio.h>

static int is_header(int code)
{
    return code == USER_DATA || code == SEQUENCE || code == EXTENSION || code == GROUP;
}

static const char *code_name(int code)
{
    if (is_slice(code))
        return "a slice outside of a picture";
    if (code == SEQUENCE_ERROR)
        return "sequence error";
    return code < SYSTEM ? "reserved" : "of a system stream, not of video";
}

/* The first code that no header has. */
static int strange_code(const struct stream *headers)
{
    size_t at = next_code(headers, 0);
    while (at < headers->length && is_header(code_at(headers, at)))
        at = next_code(headers, at + CODE_BYTES);
    return code_at(headers, at);
}

/* The first extension after the start code at the front; no bytes where something else follows. */
static struct stream extension_after(const struct stream *s, uint32_t id)
{
    size_t at = next_code(s, CODE_BYTES);
    struct stream extension = part(s, at, s->length);
    int found = code_at(s, at) == EXTENSION && field_value(&extension, EXTENSION_ID) == id;
    return found ? extension : part(s, s->length, s->length);
}

static const char *why_first_headers(const struct stream *headers)
{
    struct stream extension = extension_after(headers, SEQUENCE_EXTENSION);
    if (extension.length == 0)
        return "No sequence extension follows the sequence header: this is MPEG-1, and only MPEG-2 is sent. vbvreport\n"
               "  checks MPEG-1 too; encode it as MPEG-2 to send it.";
    return "The sequence header or its extension breaks a rule of the standard, or a second one differs. Encode it again, or\n"
           "  cut IN where the second one stands.";
}

void print_why_headers(const struct stream *headers, int first)
{
    int strange = strange_code(headers);
    if (strange >= 0)
        printf("  There is a start code %02X among them: %s. Copy or capture it again.\n", (unsigned)strange,
               code_name(strange));
    else if (first)
        printf("  %s\n", why_first_headers(headers));
    else
        printf("  A sequence header among them differs from the first in more than rate and buffer, or takes back quantiser\n"
               "  matrices that a picture has brought, so it cannot be left out. Cut IN there, and send the parts one by one.\n");
}

/* Full-pel flags 0 and codes 7, where the type has them. */
static int vectors_fit(const struct stream *layer, uint32_t type)
{
    int forward = field_value(layer, FORWARD_VECTORS) == 7, backward = field_value(layer, BACKWARD_VECTORS) == 7;
    return (type != P_PICTURE && type != B_PICTURE) || (forward && (type != B_PICTURE || backward));
}

static int has_slice(const struct stream *layer)
{
    size_t at = next_code(layer, 0);
    while (at < layer->length && !is_slice(code_at(layer, at)))
        at = next_code(layer, at + CODE_BYTES);
    return at < layer->length;
}

/* A repeated field, where the writer does not take one. */
static int is_film(const struct stream *extension, int film)
{
    return !film && field_value(extension, REPEAT_FIRST_FIELD) != 0;
}

static const char *why_layer(const struct stream *layer, int film)
{
    uint32_t type = field_value(layer, PICTURE_CODING_TYPE);
    struct stream extension = extension_after(layer, PICTURE_CODING_EXTENSION);
    if (type == D_PICTURE)
        return "It is a D picture, which MPEG-2 does not have. Encode it again.";
    if (extension.length == 0)
        return "No picture coding extension follows its header: it is cut off, or MPEG-1. Copy or capture it again.";
    if (is_film(&extension, film))
        return "Its repeat_first_field is set: this is film material, of which fields are shown twice. Such is sent with --film.";
    if (!vectors_fit(layer, type))
        return "Its header's full-pel flags and vector codes are not 0 and 7, as MPEG-2 has them. Encode it again.";
    if (!has_slice(layer))
        return "It has no slice: it is cut off, or a code that no picture has stands before its slices. Copy or capture it\n"
               "  again.";
    return "A header of it breaks a rule of the standard, or it is cut off. Copy or capture it again.";
}

enum cause print_why_layer(const struct stream *layer, int film)
{
    struct stream extension = extension_after(layer, PICTURE_CODING_EXTENSION);
    int type = (int)field_value(layer, PICTURE_CODING_TYPE);
    printf("  %s\n", why_layer(layer, film));
    return type != D_PICTURE && is_film(&extension, film) ? FILM : OTHER;
}
