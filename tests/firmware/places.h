/* Where the numbers of a card stand in its arrays, as include/nurrispane.h says; of an input, that of input 0. */
#ifndef PLACES_H
#define PLACES_H

/* in times */
enum { AT_FRAMED = 0, AT_START = 16, AT_TIME = 32 };

/* in words */
enum { AT_LAST = 0, AT_HOLDOFF = 16, AT_MARKS = 32 };

/* in small */
enum {
    AT_FRAME = 0,
    AT_LINE = 16,
    AT_COUNT = 32,
    AT_SIGNAL = 48,
    AT_GOOD = 64,
    AT_FAILED = 80,
    AT_UP = 96,
    AT_WAIT = 112,
    AT_PRIORITY = 128,
    AT_FIXED = 144,
    AT_FLOOR = 160,
    AT_KIND = 176,
    AT_LOCKED = 192,
    AT_SENDING = 208,
    AT_MODE = 224,
    AT_HELD,
    AT_SWITCH_KIND,
    AT_SWITCH_INPUT,
    AT_SELECTION,
    AT_SELECTED,
    AT_OPTION,
    AT_PLACE
};

/* in told */
enum { TOLD_NUMBER, TOLD_SELECTED, TOLD_STATE, TOLD_QUALITY, TOLD_SWITCH_KIND, TOLD_SWITCH_INPUT, TOLD_SERVED };

#endif
