/* Standard input to standard output, iCalendar text to xCal or jCal, or either to iCalendar text, by the static library. From the repository's root:
 *
 *     tools/staticlib mallettriton mallettriton_folded
 *     cc -std=c99 -Wall -Iinclude examples/c/convert.c target/staticlib/libmallettriton.a target/staticlib/libmallettriton_folded.a -o target/convert_c
 *     target/convert_c to-xml < samples/rota.ics
 *     target/convert_c to-xml-folded < samples/rota.ics
 *     target/convert_c to-jcal < samples/rota.ics
 *     target/convert_c to-text < samples/rota.xml
 *     target/convert_c jcal-to-text < samples/rota.json
 *     target/convert_c --exact to-xml < samples/rota.ics
 *
 * With an installed release: cc -std=c99 convert.c $(pkg-config --cflags --libs mallettriton) -o convert_c
 *
 * It shows two ways to lend an output. The fast one, `at_once`, lends as much as any result can need, and calls once. The exact one, `exactly`, for
 * those who are short of memory, asks first with no output at all, gets the length that is needed, and lends that; the call then does its work twice.
 *
 * The exit status is 0 for an input that is converted, 1 for one that is refused, 2 for a bad command line, an input that can't be read, a result that can't
 * be written or no memory, and 3 for an answer that can't be: header and library are then of different versions.
 */
#include <stdio.h>
#include <stdlib.h>
#include <string.h>

#include "mallettriton.h"

/* one byte more than the limit, so that a longer input is refused */
static uint8_t input[MALLETTRITON_LONGEST + 1];
static uint8_t work[MALLETTRITON_LONGEST];

static uint64_t to_xml(size_t length, uint8_t *out, size_t room)
{
    return mallettriton_to_xml(input, length, work, sizeof work, out, room, MALLETTRITON_RFC_5545);
}

static uint64_t to_xml_folded(size_t length, uint8_t *out, size_t room) /* no work room */
{
    return mallettriton_to_xml_folded(input, length, out, room, MALLETTRITON_RFC_5545);
}

static uint64_t to_jcal(size_t length, uint8_t *out, size_t room)
{
    return mallettriton_to_jcal(input, length, work, sizeof work, out, room, MALLETTRITON_RFC_5545);
}

static uint64_t to_text(size_t length, uint8_t *out, size_t room)
{
    return mallettriton_to_text(input, length, out, room, MALLETTRITON_RFC_5545);
}

static uint64_t jcal_to_text(size_t length, uint8_t *out, size_t room)
{
    return mallettriton_jcal_to_text(input, length, out, room, MALLETTRITON_RFC_5545);
}

static size_t xml_most(size_t length)
{
    return MALLETTRITON_XML_MOST(length);
}

static size_t jcal_most(size_t length)
{
    return MALLETTRITON_JCAL_MOST(length);
}

static size_t text_most(size_t length)
{
    return MALLETTRITON_TEXT_MOST(length);
}

struct way {
    const char *name;
    uint64_t (*call)(size_t length, uint8_t *out, size_t room);
    size_t (*most)(size_t length);
};

static const struct way ways[] = {
    {"to-xml", to_xml, xml_most},
    {"to-xml-folded", to_xml_folded, xml_most},
    {"to-jcal", to_jcal, jcal_most},
    {"to-text", to_text, text_most},
    {"jcal-to-text", jcal_to_text, text_most},
};
enum { WAYS = sizeof ways / sizeof ways[0] };

static int fail(int status, const char *why)
{
    fprintf(stderr, "convert_c: %s\n", why);
    return status;
}

/* An output whose bytes are set, as every call wants it. There is always a byte, so that the pointer is not null where no byte is asked for. */
static uint8_t *output(size_t room)
{
    return calloc(room + 1, 1);
}

/* Prints what a call answered that was lent an output of `room` bytes. */
static int report(uint64_t answer, const uint8_t *out, size_t room)
{
    unsigned number = MALLETTRITON_NUMBER(answer);
    size_t value = MALLETTRITON_VALUE_OF(answer);
    int status = 1;
    switch (number) {
    case MALLETTRITON_WRITTEN:
        if (value > room) {
            return fail(3, "more was written than there was room for");
        }
        if (fwrite(out, 1, value, stdout) != value) {
            return fail(2, "the result can't be written");
        }
        status = 0;
        break;
    case MALLETTRITON_ROOM:
        /* `room` bytes are enough: MALLETTRITON_..MOST says so, or the call before this one */
        return fail(3, "the library needs more room than it said");
    case MALLETTRITON_LENGTH:
    case MALLETTRITON_WORK:
    case MALLETTRITON_CHARACTER:
    case MALLETTRITON_LINE:
    case MALLETTRITON_NAME:
    case MALLETTRITON_FRAME:
    case MALLETTRITON_PARAMETER:
    case MALLETTRITON_VALUE:
    case MALLETTRITON_COUNT:
    case MALLETTRITON_XML:
    case MALLETTRITON_JSON:
    case MALLETTRITON_EDITION:
        if (printf("refused %u at %zu\n", number, value) < 0) {
            return fail(2, "the refusal can't be written");
        }
        break;
    default:
        return fail(3, "the library answered with a number that the header does not have");
    }
    /* what is still in the stream's buffer may not reach its file */
    return fflush(stdout) == 0 ? status : fail(2, "the result can't be written");
}

/* The fast way: an output that has room for every result of an input of this length. Nothing is measured first. */
static int at_once(const struct way *way, size_t length)
{
    size_t room = way->most(length);
    uint8_t *out = output(room);
    if (out == NULL) {
        return fail(2, "there is no memory for the output");
    }
    int status = report(way->call(length, out, room), out, room);
    free(out);
    return status;
}

/* The exact way: an output of no bytes, for which the answer is the length that is needed, or a refusal; then one of that length. */
static int exactly(const struct way *way, size_t length)
{
    uint8_t none[1] = {0};
    uint64_t answer = way->call(length, none, 0);
    if (MALLETTRITON_NUMBER(answer) != MALLETTRITON_ROOM) {
        return report(answer, none, 0);
    }
    size_t room = MALLETTRITON_VALUE_OF(answer);
    uint8_t *out = output(room);
    if (out == NULL) {
        return fail(2, "there is no memory for the output");
    }
    int status = report(way->call(length, out, room), out, room);
    free(out);
    return status;
}

int main(int argc, char **argv)
{
    int is_exact = argc == 3 && strcmp(argv[1], "--exact") == 0;
    int way = WAYS;
    if (argc == 2 + is_exact) {
        for (way = 0; way < WAYS && strcmp(argv[1 + is_exact], ways[way].name) != 0; way++) {
        }
    }
    if (way == WAYS) {
        return fail(2, "usage: convert_c [--exact] to-xml|to-xml-folded|to-jcal|to-text|jcal-to-text < INPUT");
    }

    size_t length = fread(input, 1, sizeof input, stdin);
    if (ferror(stdin)) {
        return fail(2, "the input can't be read");
    }
    return is_exact ? exactly(&ways[way], length) : at_once(&ways[way], length);
}
