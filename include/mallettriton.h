/* Mallettriton for C: iCalendar text (RFC 5545) to xCal (RFC 6321) or jCal (RFC 7265) and back, on buffers that the caller lends.
 *
 * Link libmallettriton.a (x86-64 Linux), for mallettriton_to_xml_folded libmallettriton_folded.a. An installed release has both, and
 * `pkg-config --cflags --libs mallettriton` names them; in the repository `tools/staticlib mallettriton mallettriton_folded` proves them and
 * writes them to target/staticlib. The library allocates nothing, keeps nothing between calls and makes no system call. docs/FORMAT.md says what is
 * accepted and what is written, examples/c/convert.c is a whole program.
 *
 * A buffer is a pointer and a length in bytes. What is proved holds if each pointer is to that many bytes which can be read (those of
 * the work room and the output written too) and whose contents are set, no pointer is null, not even of an empty buffer, and
 * the work room and the output overlap with nothing.
 */
#ifndef MALLETTRITON_H
#define MALLETTRITON_H

#include <stddef.h>
#include <stdint.h>

#ifdef __cplusplus
extern "C" {
#endif

/* The version of these declarations: it grows where a call changes or is added. 2: both calls take an edition. 3: jCal. 4: to XML
 * with no work room. 5: the end of a log's first document. */
#define MALLETTRITON_VERSION 5

/* Editions of iCalendar text: RFC 5545 alone; with the carets of RFC 6868 in values of parameters. */
#define MALLETTRITON_RFC_5545 0u
#define MALLETTRITON_RFC_6868 1u

/* The longest input in bytes, of every call. A work room of this length serves every input. */
#define MALLETTRITON_LONGEST 65535

/* How long the result of an input of n bytes can be. An output of this length is never refused with ROOM, and the call is then faster: it
 * does not measure the result before it writes it. */
#define MALLETTRITON_XML_MOST(n) (19 * (size_t)(n) + 109)
#define MALLETTRITON_JCAL_MOST(n) (19 * (size_t)(n) + 2)
#define MALLETTRITON_TEXT_MOST(n) (6 * (size_t)(n)) /* of a document, and of jCal */

/* What an answer's number says, and what its value is then. Places count bytes of the input from 0; a line's place is the first of its
 * bytes that unfolding keeps, and so is that of a parameter's name or of a value (of an empty one it is the CR at the line's end); a
 * tag's place is its `<`, and that of an array its bracket.
 *
 * From text, to XML and to jCal alike, all but XML and JSON are given: LENGTH, WORK, EDITION and CHARACTER first, then the lowest number that the first
 * faulty line has. To text all but WORK and LINE are given: LENGTH, EDITION, CHARACTER and XML, from jCal JSON, first, over the whole input, then the
 * fault at the smallest place, the lowest number if there are several. ROOM comes last. */
enum mallettriton_number {
    MALLETTRITON_WRITTEN = 0,   /* converted                                              value: how many bytes were written   */
    MALLETTRITON_LENGTH = 1,    /* the input is longer than 65,535 bytes                  value: 0                             */
    MALLETTRITON_WORK = 2,      /* from text: the work room is shorter than the input     value: 0                             */
    MALLETTRITON_CHARACTER = 3, /* not UTF-8, or a character that may not stand there     value: place of its first byte       */
    MALLETTRITON_LINE = 4,      /* from text: no content line, or not ended by CR LF      value: place of the line             */
    MALLETTRITON_NAME = 5,      /* a name that can't be carried                           value: place of the line, tag or
                                                                                                 bracket                       */
    MALLETTRITON_FRAME = 6,     /* something where it may not stand, something missing,   value: place of the line, tag or
                                   still open at the end, or no calendar at all                  bracket, of what else may not
                                                                                                 stand there its first byte; the
                                                                                                 text's length at its end      */
    MALLETTRITON_PARAMETER = 7, /* a parameter not permitted, repeated, or of bad value   value: place of its name, of the value
                                                                                                 where ENCODING is missing, or of
                                                                                                 the tag, or of the property's
                                                                                                 bracket                       */
    MALLETTRITON_VALUE = 8,     /* a value not of a permitted type                        value: place of the value or tag, or
                                                                                                 of the property's bracket     */
    MALLETTRITON_COUNT = 9,     /* a property missing or too often, a pair broken, a      value: place of the END line or of
                                   VTIMEZONE with nothing in it                                  the component's end tag or
                                                                                                 closing bracket               */
    MALLETTRITON_ROOM = 10,     /* the result is longer than the output                   value: the result's exact length     */
    MALLETTRITON_XML = 11,      /* from XML: outside the XML that is read                 value: place of the tag, reference or
                                                                                                 character; the document's length
                                                                                                 if an element is still open or
                                                                                                 there is none                 */
    MALLETTRITON_JSON = 12,     /* from jCal: outside JSON's grammar, an escape that      value: place of the first byte at
                                   names what may not stand there, or a 33rd open                which no JSON can go on, the
                                   array or object                                               text's length if it is cut short;
                                                                                                 of the escape's backslash; of the
                                                                                                 bracket                       */
    MALLETTRITON_EDITION = 13   /* an edition other than 0 and 1                          value: 0                             */
};

/* An answer is one number: its number times 4294967296, and its value, which is below 4294967296. A caller that meets a number which is not above
 * has a library of another version, and should say so and go no further. */
#define MALLETTRITON_NUMBER(answer) ((unsigned)((uint64_t)(answer) >> 32))
#define MALLETTRITON_VALUE_OF(answer) ((size_t)((uint64_t)(answer) & 0xffffffffu))

/* Converts the iCalendar text `input` to canonical XML in `out`.
 *
 *   input, input_length   the text; it is not changed
 *   work, work_length     a work room, as long as the input or longer. After LENGTH, WORK and EDITION it is as it was; after every other
 *                         answer it begins with the input without its folds, and its other bytes are as they were
 *   out, out_length       the output. After WRITTEN it begins with the result, and its other bytes are as they were; after every
 *                         other answer all of it is as it was. With a length of 0 the call tells the length that is needed
 *   edition               that of the text
 *
 * Its answers are 0 to 10 and 13. Allow the call 250 kB of stack: the names of many parameters are compared there.
 */
uint64_t mallettriton_to_xml(const uint8_t *input, size_t input_length,
                             uint8_t *work, size_t work_length,
                             uint8_t *out, size_t out_length, uint32_t edition);

/* Converts the iCalendar text `input` to canonical XML in `out`, with no work room: the text is read with its folds in place, and nothing of it is
 * copied but into the output. The answers are those of mallettriton_to_xml with a work room that is long enough, places included, and so never WORK;
 * the output is left as there.
 *
 * For machines with little memory: it stands in an archive of its own, libmallettriton_folded.a, and needs 16 kB of stack. It takes 1.8 times as long
 * as mallettriton_to_xml, on long folded texts 2.5 times. Its time grows with the input's length; only a line with thousands of
 * parameters takes longer: the worst that was found 74 ms, where a rota of 64 kB takes 2 ms (docs/PERFORMANCE.md).
 */
uint64_t mallettriton_to_xml_folded(const uint8_t *input, size_t input_length,
                                    uint8_t *out, size_t out_length, uint32_t edition);

/* Converts the iCalendar text `input` to canonical jCal in `out`. Lent are the buffers of mallettriton_to_xml, the answers are the same but for the
 * result, and the call takes as much stack.
 */
uint64_t mallettriton_to_jcal(const uint8_t *input, size_t input_length,
                              uint8_t *work, size_t work_length,
                              uint8_t *out, size_t out_length, uint32_t edition);

/* Converts the xCal document `input` to canonical iCalendar text in `out`.
 *
 *   input, input_length   the document; it is not changed
 *   out, out_length       the output. After WRITTEN it begins with the result, and its other bytes are as they were; after every
 *                         other answer all of it is as it was. With a length of 0 the call tells the length that is needed
 *   edition               that of the text which is written
 *
 * Its answers are 0, 1, 3, 5 to 11 and 13. There is no work room. Allow the call 1,200 kB of stack: a content line is put together in a room
 * of 262,144 bytes there, before it is folded into the output, and the names of many parameters are compared there.
 */
uint64_t mallettriton_to_text(const uint8_t *input, size_t input_length,
                              uint8_t *out, size_t out_length, uint32_t edition);

/* Converts the jCal text `input` to canonical iCalendar text in `out`. Lent are the same buffers. Allow the call 400 kB of stack.
 *
 * Its answers are 0, 1, 3, 5 to 10, 12 and 13.
 */
uint64_t mallettriton_jcal_to_text(const uint8_t *input, size_t input_length,
                                   uint8_t *out, size_t out_length, uint32_t edition);

/* Finds the end of the first document of a log, that is of the XML that calls to XML wrote, one after another: how many bytes the document has. It is 0 where
 * no document ends in the bytes that are lent, as in an empty log, or where the last document was cut off. So
 *
 *     while ((n = mallettriton_document_end(log, length)) != 0) { ...; log += n; length -= n; }
 *
 * meets exactly the documents of a log, in order, and leaves 0 bytes of it, or the part of a document that was cut off; that is proved for whatever texts were
 * accepted, in any editions. On other bytes the answer is the place behind the first `</icalendar>` that a line feed follows.
 *
 *   log, log_length   the log; it is not changed. It may have any length
 *
 * It reads each byte twice at most, and takes next to no stack.
 */
size_t mallettriton_document_end(const uint8_t *log, size_t log_length);

#ifdef __cplusplus
}
#endif

#endif
