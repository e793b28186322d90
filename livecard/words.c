/* Words to an event, in the order in which they stand; tools/nurrispane/words.py reads the same language. */
#include "words.h"

#include <stdarg.h>
#include <stdio.h>
#include <string.h>

#define LARGEST_INPUT 0xff
#define LARGEST_ARGUMENT 0xffff
#define LARGEST_FRAME 65535
#define BINARY_DIGITS 4 /* of a code */
#define MOST_DIGITS 30 /* of a number */
#define NAMES 10
#define HEX "0123456789abcdef"

/* Octets of an ESMC frame, from 0. */
#define SOURCE_AT 6
#define FLAG_AT 20
#define CODE_AT 27

/* A name that stands for a number in an argument. */
struct named {
    const char *name;
    uint16_t number;
};

/* A kind of event: its word, whether an input is named, whether there is an argument, and its names. */
struct kind {
    uint8_t number;
    const char *word;
    bool has_input, has_argument;
    struct named names[NAMES];
};

static const struct kind kinds[] = {
    {NURRISPANE_EVENT_SIGNAL, "signal", true, true, {{"good", 0}, {"fail", 1}}},
    {NURRISPANE_EVENT_LINE_CODE, "code", true, true, {{0}}},
    {NURRISPANE_EVENT_PRIORITY, "priority", true, true, {{0}}},
    {NURRISPANE_EVENT_LOCKOUT, "lockout", true, true, {{"set", 1}, {"clear", 0}}},
    {NURRISPANE_EVENT_HOLDOFF, "hold-off", true, true, {{0}}},
    {NURRISPANE_EVENT_WAIT, "wait", true, true, {{0}}},
    {NURRISPANE_EVENT_FIXED_QUALITY, "fixed", true, true, {{"none", 0}}},
    {NURRISPANE_EVENT_CLEAR_WAIT, "clear-wait", true, false, {{0}}},
    {NURRISPANE_EVENT_FORCED, "forced", true, false, {{0}}},
    {NURRISPANE_EVENT_MANUAL, "manual", true, false, {{0}}},
    {NURRISPANE_EVENT_CLEAR_SWITCH, "clear-switch", false, false, {{0}}},
    {NURRISPANE_EVENT_QUALITY_MODE, "mode", false, true, {{"on", 1}, {"off", 0}}},
    {NURRISPANE_EVENT_SENDING, "sending", true, true, {{"on", 1}, {"off", 0}}},
    {NURRISPANE_EVENT_TICK, "tick", false, false, {{0}}},
    {NURRISPANE_EVENT_INPUT_KIND, "kind", true, true, {{"line", 0}, {"ethernet", 1}, {"words", 2}}},
    {NURRISPANE_EVENT_FLOOR, "floor", true, true, {{0}}},
    {NURRISPANE_EVENT_WORD, "word", true, true,
     {{"PRS", 0x04ff}, {"STU", 0x08ff}, {"ST2", 0x0cff}, {"TNC", 0x78ff}, {"ST3E", 0x7cff},
      {"ST3", 0x10ff}, {"SIC", 0x22ff}, {"ST4", 0x28ff}, {"PROV", 0x40ff}, {"DUS", 0x30ff}}},
};

/* The codes of either option, by the names of the qualities. */
static const struct named codes_one[] = {
    {"PRC", 2}, {"SSU-A", 4}, {"SSU-B", 8}, {"SEC", 11}, {"DNU", 15}, {NULL, 0}};
static const struct named codes_two[] = {{"PRS", 1},  {"STU", 0},  {"ST2", 7},   {"TNC", 4},
                                         {"ST3E", 13}, {"ST3", 10}, {"SIC", 12}, {"PROV", 14},
                                         {"DUS", 15}, {NULL, 0}};

/* A line while it is read: what is left, and what is wrong with it. */
struct reader {
    const char *line, *rest;
    char *wrong;
    uint8_t option;
};

/* A word of the line. */
struct word {
    const char *text;
    size_t length;
};

__attribute__((format(printf, 3, 4))) static bool is_wrong(struct reader *reader, const char *where,
                                                           const char *format, ...)
{
    va_list values;
    int at = snprintf(reader->wrong, WRONG_ROOM, "column %td: ", where - reader->line + 1);

    va_start(values, format);
    vsnprintf(reader->wrong + at, (size_t)(WRONG_ROOM - at), format, values);
    va_end(values);
    return false;
}

/* The next word; false where there is none. */
static bool next_word(struct reader *reader, struct word *word)
{
    reader->rest += strspn(reader->rest, " \t\r");
    word->text = reader->rest;
    word->length = strcspn(reader->rest, " \t\r");
    reader->rest += word->length;
    return word->length > 0;
}

static bool take_word(struct reader *reader, struct word *word, const char *what)
{
    return next_word(reader, word) || is_wrong(reader, word->text, "%s is missing", what);
}

static bool is(const struct word *word, const char *text)
{
    return word->length == strlen(text) && memcmp(word->text, text, word->length) == 0;
}

static bool is_all(const struct word *word, const char *digits)
{
    return word->length > 0 && strspn(word->text, digits) >= word->length;
}

/* A decimal number up to `largest`. */
static bool read_number(struct reader *reader, const struct word *word, unsigned largest,
                        const char *what, unsigned *number)
{
    *number = 0;
    if (!is_all(word, "0123456789") || word->length > MOST_DIGITS)
        return is_wrong(reader, word->text, "%s is a decimal number", what);
    for (size_t i = 0; i < word->length; i++) {
        *number = *number * 10 + (unsigned)(word->text[i] - '0');
        if (*number > largest)
            return is_wrong(reader, word->text, "%s is at most %u", what, largest);
    }
    return true;
}

static bool take_number(struct reader *reader, unsigned largest, const char *what, unsigned *number)
{
    struct word word;

    return take_word(reader, &word, what) && read_number(reader, &word, largest, what, number);
}

/* A code: four binary digits or the name of a quality. A plain number is none. */
static bool take_code(struct reader *reader, unsigned *code)
{
    const struct named *named = reader->option == NURRISPANE_OPTION_2 ? codes_two : codes_one;
    struct word word;

    *code = 0;
    if (!take_word(reader, &word, "a code"))
        return false;
    if (word.length == BINARY_DIGITS && is_all(&word, "01")) {
        for (size_t i = 0; i < BINARY_DIGITS; i++)
            *code = *code * 2 + (unsigned)(word.text[i] - '0');
        return true;
    }
    for (; named->name; named++)
        if (is(&word, named->name)) {
            *code = named->number;
            return true;
        }
    return is_wrong(reader, word.text,
                    "a code is four binary digits, as 1011, or a quality's name");
}

static unsigned digit_value(char digit)
{
    return (unsigned)(strchr(HEX, digit) - HEX);
}

/* Two lowercase hexadecimal digits. */
static bool read_octet(const char *text, uint8_t *octet)
{
    if (strspn(text, HEX) < 2)
        return false;
    *octet = (uint8_t)(digit_value(text[0]) * 16 + digit_value(text[1]));
    return true;
}

/* ---- frames */

/* An ESMC frame of 60 octets from 02-00-00-00-00-01. */
static void sound_frame(uint8_t octets[NURRISPANE_FRAME_OCTETS], unsigned code)
{
    static const uint8_t head[] = {0x01, 0x80, 0xc2, 0x00, 0x00, 0x02, 0x02, 0x00, 0x00,
                                   0x00, 0x00, 0x01, 0x88, 0x09, 0x0a, 0x00, 0x19, 0xa7,
                                   0x00, 0x01, 0x10, 0x00, 0x00, 0x00, 0x01, 0x00, 0x04};

    memset(octets, 0, NURRISPANE_FRAME_OCTETS);
    memcpy(octets, head, sizeof head);
    octets[CODE_AT] = (uint8_t)code;
}

/* A length that a log has a line for. */
static bool set_length(struct reader *reader, const struct word *value, struct spoken *spoken)
{
    unsigned length;

    if (!read_number(reader, value, LARGEST_FRAME, "a length", &length))
        return false;
    if (length > LONGEST_FRAME)
        return is_wrong(reader, value->text, "a log has no line for more than %d octets",
                        LONGEST_FRAME);
    if (length > spoken->event.length)
        memset(spoken->octets + spoken->event.length, 0, length - spoken->event.length);
    spoken->event.length = length;
    return true;
}

static bool set_source(struct reader *reader, const struct word *value, struct spoken *spoken)
{
    uint8_t source[NURRISPANE_SOURCE_OCTETS];

    for (size_t i = 0; i < sizeof source; i++)
        if (value->length != 3 * sizeof source - 1 ||
            !read_octet(value->text + 3 * i, &source[i]) ||
            (i > 0 && value->text[3 * i - 1] != '-'))
            return is_wrong(reader, value->text,
                            "a source address is six octets, as 02-00-00-00-00-01");
    if (spoken->event.length >= SOURCE_AT + sizeof source)
        memcpy(spoken->octets + SOURCE_AT, source, sizeof source);
    return true;
}

static bool set_octet(struct reader *reader, const struct word *word, size_t place, uint8_t octet,
                      struct spoken *spoken)
{
    if (place < 1 || place > spoken->event.length)
        return is_wrong(reader, word->text, "the frame has octets 1 to %zu", spoken->event.length);
    spoken->octets[place - 1] = octet;
    return true;
}

/* oN=HH, length=N, source=ADDRESS, flag=0 or 1. */
static bool change_frame(struct reader *reader, const struct word *word, struct spoken *spoken)
{
    const char *equals = memchr(word->text, '=', word->length);
    struct word name, value;
    unsigned place;
    uint8_t octet;

    if (!equals)
        return is_wrong(reader, word->text,
                        "a frame's further words are oN=HH, length=N, source=ADDRESS, flag=1");
    name = (struct word){word->text, (size_t)(equals - word->text)};
    value = (struct word){equals + 1, word->length - name.length - 1};
    if (is(&name, "length"))
        return set_length(reader, &value, spoken);
    if (is(&name, "source"))
        return set_source(reader, &value, spoken);
    if (is(&name, "flag")) {
        if (!is(&value, "0") && !is(&value, "1"))
            return is_wrong(reader, word->text, "flag=0 or flag=1");
        return set_octet(reader, word, FLAG_AT + 1, is(&value, "1") ? 0x18 : 0x10, spoken);
    }
    if (name.text[0] != 'o' || name.length < 2 || name.length > 6 || value.length != 2 ||
        !read_octet(value.text, &octet))
        return is_wrong(reader, word->text, "an octet is oN=HH: its number from 1, two lowercase digits");
    name = (struct word){name.text + 1, name.length - 1};
    return read_number(reader, &name, LARGEST_FRAME, "an octet's number", &place) &&
           set_octet(reader, word, place, octet, spoken);
}

static bool read_frame(struct reader *reader, struct spoken *spoken)
{
    unsigned input, code;
    struct word word;

    if (!take_number(reader, LARGEST_INPUT, "an input", &input) ||
        !take_code(reader, &code))
        return false;
    spoken->event.kind = NURRISPANE_EVENT_FRAME;
    spoken->event.input = (uint8_t)input;
    spoken->event.length = NURRISPANE_FRAME_OCTETS;
    sound_frame(spoken->octets, code);
    while (next_word(reader, &word))
        if (!change_frame(reader, &word, spoken))
            return false;
    return true;
}

/* ---- other events */

/* event KIND INPUT ARGUMENT [DIGITS]: any numbers. */
static bool read_any(struct reader *reader, struct spoken *spoken)
{
    unsigned input, argument;
    struct word word;
    uint8_t kind;

    if (!take_word(reader, &word, "a kind"))
        return false;
    if (word.length != 2 || !read_octet(word.text, &kind))
        return is_wrong(reader, word.text, "a kind is two lowercase hexadecimal digits");
    if (!take_number(reader, LARGEST_INPUT, "an input", &input) ||
        !take_number(reader, LARGEST_ARGUMENT, "an argument", &argument))
        return false;
    spoken->event.kind = kind;
    spoken->event.input = (uint8_t)input;
    spoken->event.argument = (uint16_t)argument;
    if (!next_word(reader, &word))
        return true;
    if (!is_all(&word, HEX))
        return is_wrong(reader, word.text, "a frame's octets are lowercase hexadecimal digits");
    if (kind != NURRISPANE_EVENT_FRAME || word.length % 2 != 0 || word.length > 2 * LONGEST_FRAME)
        return is_wrong(reader, word.text, "a line of these would be malformed, and no event");
    for (size_t i = 0; i < word.length / 2; i++)
        read_octet(word.text + 2 * i, &spoken->octets[i]);
    spoken->event.length = word.length / 2;
    return true;
}

/* An argument by its name or its number. */
static bool read_argument(struct reader *reader, const struct kind *kind, uint16_t *argument)
{
    unsigned number;
    struct word word;

    if (!take_word(reader, &word, "an argument"))
        return false;
    for (size_t i = 0; i < NAMES && kind->names[i].name; i++)
        if (is(&word, kind->names[i].name)) {
            *argument = kind->names[i].number;
            return true;
        }
    if (!read_number(reader, &word, LARGEST_ARGUMENT, "the argument", &number))
        return false;
    *argument = (uint16_t)number;
    return true;
}

static bool read_known(struct reader *reader, const struct kind *kind, struct spoken *spoken)
{
    unsigned input = 0, code = 0;

    if (kind->has_input && !take_number(reader, LARGEST_INPUT, "an input", &input))
        return false;
    spoken->event.kind = kind->number;
    spoken->event.input = (uint8_t)input;
    if (kind->number == NURRISPANE_EVENT_LINE_CODE) {
        bool taken = take_code(reader, &code);

        spoken->event.argument = (uint16_t)code;
        return taken;
    }
    return !kind->has_argument || read_argument(reader, kind, &spoken->event.argument);
}

static bool read_event(struct reader *reader, const struct word *word, struct spoken *spoken)
{
    if (is(word, "frame"))
        return read_frame(reader, spoken);
    if (is(word, "event"))
        return read_any(reader, spoken);
    for (size_t i = 0; i < sizeof kinds / sizeof *kinds; i++)
        if (is(word, kinds[i].word))
            return read_known(reader, &kinds[i], spoken);
    return is_wrong(reader, word->text, "no such word: %.*s",
                    (int)(word->length < 40 ? word->length : 40), word->text);
}

bool words_go_to_both(uint8_t kind)
{
    return kind == NURRISPANE_EVENT_SIGNAL || kind == NURRISPANE_EVENT_FRAME ||
           kind == NURRISPANE_EVENT_LINE_CODE || kind == NURRISPANE_EVENT_WORD ||
           kind == NURRISPANE_EVENT_INPUT_KIND || kind == NURRISPANE_EVENT_TICK;
}

bool words_read(const char *line, const struct profile *profile, struct spoken *spoken,
                char wrong[WRONG_ROOM])
{
    struct reader reader = {line, line, wrong, profile->option};
    bool unit = profile_is_unit(profile);
    struct word word, more;

    memset(&spoken->event, 0, sizeof spoken->event);
    spoken->half_said = false;
    spoken->event.frame = spoken->octets;
    if (!take_word(&reader, &word, "the event's word"))
        return false;
    if (unit && (is(&word, "e") || is(&word, "s"))) {
        spoken->half_said = true;
        spoken->event.half = is(&word, "s") ? NURRISPANE_STATION : NURRISPANE_EQUIPMENT;
        if (!take_word(&reader, &word, "the event's word"))
            return false;
    }
    if (!read_event(&reader, &word, spoken))
        return false;
    if (next_word(&reader, &more))
        return is_wrong(&reader, more.text, "one word too many");
    if (unit && !spoken->half_said && !words_go_to_both(spoken->event.kind))
        return is_wrong(&reader, line, "which selector: e, the equipment's, or s, the station's?");
    return true;
}

/* ---- answers */

const char *words_state(uint8_t clock_state)
{
    static const char *const names[] = {"free", "hold", "lock"};

    return clock_state < sizeof names / sizeof *names ? names[clock_state] : "?";
}

int words_answer(const struct answer *answer, char *text, size_t room)
{
    char number[8] = "", selected[8] = "-", change[16] = "";

    if (answer->number != NURRISPANE_ACCEPTED)
        snprintf(number, sizeof number, "!%u ", answer->number);
    if (answer->selected != NURRISPANE_NO_INPUT)
        snprintf(selected, sizeof selected, "%u", answer->selected);
    if (answer->switch_kind != NURRISPANE_SWITCH_NONE)
        snprintf(change, sizeof change, " %s %u",
                 answer->switch_kind == NURRISPANE_SWITCH_FORCED ? "forced" : "manual",
                 answer->switch_input);
    return snprintf(text, room, "%s%s %s %u%s", number, selected, words_state(answer->clock_state),
                    answer->clock_quality, change);
}

const char *words_refusal(uint8_t number)
{
    static const char *const names[] = {
        "accepted", "line malformed", "kind unknown", "time at or above 2^48",
        "time before that of the state", "input above 15, or not 0 for 0c, 0d, 0f",
        "argument out of range", "code, frame or word for an input of another kind", "frame length",
        "destination", "octets 13-15", "octets 16-20", "version", "octets 25-27",
        "forced: input off or locked", "manual: a forced switch stands",
        "manual: input not eligible", "manual: an eligible input has lower passed quality"};

    return number < sizeof names / sizeof *names ? names[number] : "?";
}

const char *words_quality(uint8_t option, uint8_t quality)
{
    static const char *const first[] = {"not told", "PRC", "SSU-A", "SSU-B",
                                        "SEC",      "DNU", "invalid", "failed"};
    static const char *const second[] = {"not told", "PRS", "STU", "ST2",  "TNC", "ST3E",   "ST3",
                                         "SIC",      "ST4", "PROV", "DUS", "invalid", "failed"};

    if (option == NURRISPANE_OPTION_2)
        return quality < sizeof second / sizeof *second ? second[quality] : "?";
    return quality < sizeof first / sizeof *first ? first[quality] : "?";
}
