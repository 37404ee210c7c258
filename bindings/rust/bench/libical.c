/* libical parses a text and prints what it has parsed. Compiled only where pkg-config finds libical. */
#include <string.h>
#include <libical/ical.h>

/* How many bytes it prints; 0 if it can't parse the text. */
size_t parse_and_print(const char *text)
{
    icalcomponent *calendar = icalparser_parse_string(text);
    if (calendar == NULL) {
        return 0;
    }
    char *printed = icalcomponent_as_ical_string_r(calendar);
    size_t length = printed == NULL ? 0 : strlen(printed);
    icalmemory_free_buffer(printed);
    icalcomponent_free(calendar);
    return length;
}

/* It parses the text and finds no error in it. */
int is_parsed(const char *text)
{
    icalcomponent *calendar = icalparser_parse_string(text);
    if (calendar == NULL) {
        return 0;
    }
    int errors = icalcomponent_count_errors(calendar);
    icalcomponent_free(calendar);
    return errors == 0;
}
