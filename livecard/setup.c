/* The setup's file: read and tried before anything is opened, so that a wrong one starts nothing. */
#include "setup.h"

#include <errno.h>
#include <stdio.h>
#include <string.h>

#include "console.h"
#include "tell.h"

static void take_line(struct setup *setup, char *line, unsigned place, const struct profile *profile)
{
    static struct spoken spoken;
    char wrong[WRONG_ROOM];

    line[strcspn(line, "#\r\n")] = 0;
    if (line[strspn(line, " \t")] == 0)
        return;
    if (!words_read(line, profile, &spoken, wrong))
        fail("%s: line %u, %s", setup->path, place, wrong);
    if (spoken.event.length > 0)
        fail("%s: line %u: a setup has no frames", setup->path, place);
    if (setup->count == SETUP_LINES)
        fail("%s has more than %d events", setup->path, SETUP_LINES);
    spoken.event.frame = NURRISPANE_NO_FRAME;
    setup->events[setup->count] = spoken.event;
    setup->lines[setup->count++] = place;
}

void setup_read(struct setup *setup, const char *path, const struct profile *profile)
{
    char line[SAID_ROOM];
    FILE *file;

    setup->path = path;
    setup->count = 0;
    if (!path)
        return;
    file = fopen(path, "re");
    if (!file)
        fail("--setup %s: %s", path, strerror(errno));
    for (unsigned place = 1; fgets(line, sizeof line, file); place++) {
        if (!strchr(line, '\n') && !feof(file))
            fail("%s: line %u is too long", path, place);
        take_line(setup, line, place, profile);
    }
    if (ferror(file))
        fail("--setup %s: %s", path, strerror(errno));
    fclose(file);
}

void setup_try(const struct setup *setup, const struct profile *profile)
{
    static struct selector trial;

    if (!selector_fresh(&trial, profile))
        fail("the library does not start with this place or minimum");
    for (size_t i = 0; i < setup->count; i++) {
        selector_step(&trial, &setup->events[i]);
        uint8_t number = selector_answer(&trial, setup->events[i].half).number;
        if (number != NURRISPANE_ACCEPTED)
            fail("%s: line %u is refused with %u: %s", setup->path, setup->lines[i], number,
                 words_refusal(number));
    }
}
