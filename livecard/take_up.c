/*
 * Taking up what was kept. A kept state is the state after so many lines of a file of the log, and the log
 * is never behind it; what the log has besides was written before the program ended, and is given to the
 * library again. So the card goes on where its log ends, and the log goes on without a gap.
 */
#include <dirent.h>
#include <errno.h>
#include <fcntl.h>
#include <limits.h>
#include <stdio.h>
#include <stdlib.h>
#include <string.h>
#include <sys/stat.h>
#include <unistd.h>

#include "log.h"

/* A text file in hand. */
struct text {
    char *octets;
    size_t length;
};

/* Reads a file, cut to its whole lines; a torn last line is cut off on the disk too. False with errno. */
static bool read_whole_lines(const char *name, struct text *text)
{
    int file = open(name, O_RDWR | O_CLOEXEC);
    struct stat found;
    size_t whole = 0;

    text->octets = NULL;
    text->length = 0;
    if (file < 0)
        return false;
    bool read_all = fstat(file, &found) == 0;
    if (read_all && found.st_size > 0) {
        text->octets = malloc((size_t)found.st_size);
        read_all = text->octets != NULL;
        while (read_all && text->length < (size_t)found.st_size) {
            ssize_t got = read(file, text->octets + text->length,
                               (size_t)found.st_size - text->length);

            if (got > 0)
                text->length += (size_t)got;
            else if (got == 0 || errno != EINTR)
                read_all = false;
        }
    }
    for (size_t i = 0; read_all && i < text->length; i++)
        if (text->octets[i] == '\n')
            whole = i + 1;
    if (read_all && whole < text->length) {
        tell("%s: a torn line of %zu octets at its end was cut off", name, text->length - whole);
        read_all = ftruncate(file, (off_t)whole) == 0 && fsync(file) == 0;
        text->length = whole;
    }
    int saved = errno;
    close(file);
    if (!read_all) {
        free(text->octets);
        text->octets = NULL;
    }
    errno = saved;
    return read_all;
}

static uint64_t lines_of(const struct text *text)
{
    uint64_t lines = 0;

    for (size_t i = 0; i < text->length; i++)
        lines += text->octets[i] == '\n';
    return lines;
}

/* Where the first `lines` lines end. */
static size_t end_of(const struct text *text, uint64_t lines)
{
    size_t at = 0;

    for (; lines > 0; lines--)
        at += (size_t)((char *)memchr(text->octets + at, '\n', text->length - at) - text->octets) - at + 1;
    return at;
}

/* Cuts the answers to `lines` lines and opens the file to write on; -1 with errno. */
static int open_answers(const char *name, const struct text *answers, uint64_t lines)
{
    int file = open(name, O_WRONLY | O_APPEND | O_CREAT | O_CLOEXEC, 0640);

    if (file >= 0 && ftruncate(file, (off_t)end_of(answers, lines)) < 0) {
        close(file);
        return -1;
    }
    return file;
}

static bool put_answer(int file, const struct selector *selector)
{
    char answer[ANSWER_ROOM];

    selector_answer_line(selector, answer);
    return write(file, answer, strlen(answer)) == (ssize_t)strlen(answer);
}

/*
 * Gives the lines of a file behind the first `skip` to the selector again, and writes those answers that
 * are missing. False where the file does not reach so far or cannot be read.
 */
static bool take_file(struct log *log, struct selector *selector, uint64_t skip)
{
    char log_name[PATH_MAX], answers_name[PATH_MAX];
    struct text lines, answers = {NULL, 0};
    uint64_t count, answered, line = skip;
    uint8_t octets[LONGEST_FRAME];
    struct event event;
    bool fine;
    int file;

    disk_name(log_name, sizeof log_name, log->directory, log->at.sequence, log->at.file, "log");
    disk_name(answers_name, sizeof answers_name, log->directory, log->at.sequence, log->at.file,
              "answers");
    if (!read_whole_lines(log_name, &lines))
        return false;
    if (!read_whole_lines(answers_name, &answers) && errno != ENOENT) {
        free(lines.octets);
        return false;
    }
    count = lines_of(&lines);
    answered = lines_of(&answers);
    if (answered > count)
        answered = count;
    fine = count >= skip && answered >= skip;
    file = fine ? open_answers(answers_name, &answers, answered) : -1;
    fine = file >= 0;
    for (size_t at = fine ? end_of(&lines, skip) : 0; fine && at < lines.length; line++) {
        const char *text = lines.octets + at;
        size_t length = (size_t)((char *)memchr(text, '\n', lines.length - at) - text);

        fine = log_read_line(&selector->profile, text, length, &event, octets);
        if (fine)
            selector_step(selector, &event);
        if (fine && line >= answered)
            fine = put_answer(file, selector);
        at += length + 1;
    }
    log->at.lines = count;
    log->octets = lines.length;
    if (file >= 0 && (fsync(file) < 0 || close(file) < 0))
        fine = false;
    free(lines.octets);
    free(answers.octets);
    if (fine && count > skip)
        tell("%s: %llu lines behind the kept state were taken up", log_name,
             (unsigned long long)(count - skip));
    return fine;
}

static bool is_there(const struct log *log, uint32_t sequence, uint32_t file, const char *ending)
{
    char name[PATH_MAX];

    disk_name(name, sizeof name, log->directory, sequence, file, ending);
    return access(name, F_OK) == 0;
}

/* Takes up the log from where the kept state stands to its end. */
static bool take_log(struct log *log, struct selector *selector, uint64_t lines)
{
    if (!take_file(log, selector, lines))
        return false;
    while (is_there(log, log->at.sequence, log->at.file + 1, "log")) {
        log->at.file++;
        if (!take_file(log, selector, 0))
            return false;
    }
    return true;
}

/* The last sequence in the directory; 0 for none. */
static uint32_t last_sequence(const char *directory)
{
    DIR *names = opendir(directory);
    uint32_t last = 0;

    if (!names)
        fail("%s cannot be read: %s", directory, strerror(errno));
    for (struct dirent *entry = readdir(names); entry; entry = readdir(names)) {
        unsigned sequence, file;
        int end = 0;

        if (sscanf(entry->d_name, "card-%6u-%6u.%n", &sequence, &file, &end) == 2 && end > 0 &&
            sequence > last)
            last = sequence;
    }
    closedir(names);
    return last;
}

static bool same_profile(const struct profile *one, const struct profile *other)
{
    return one->option == other->option && one->place == other->place &&
           one->marks == other->marks && one->minimum == other->minimum;
}

/* The kept state's own clock where the machine has not started since; otherwise time goes on from the state's. */
static struct card_clock clock_after(const struct log *log, const struct kept *kept,
                                     const struct selector *selector, bool same_sequence)
{
    struct card_clock kept_clock = {kept->zero};
    uint64_t now = monotonic_ns(), time = selector_time(selector);

    if (same_sequence && log->boot[0] && strcmp(log->boot, kept->boot) == 0 &&
        clock_ms(&kept_clock, now) >= time)
        return kept_clock;
    tell("the clock began anew since: the card's time goes on from %llu ms", (unsigned long long)time);
    return clock_from(time);
}

/* The log of the kept state, or of a `fresh` that came just after it. False where the log has a gap. */
static bool follow_log(struct log *log, struct selector *selector, const struct kept *kept,
                       uint32_t last)
{
    log->at.sequence = kept->sequence;
    log->at.file = kept->file;
    if (last == kept->sequence)
        return take_log(log, selector, kept->lines);
    if (last < kept->sequence || is_there(log, last, 1, "start") ||
        !selector_fresh(selector, &kept->profile))
        return false;
    tell("a sequence of the log began after the state was kept");
    log->at.sequence = last;
    log->at.file = 1;
    return take_log(log, selector, 0);
}

/* Whether the sequence taken up is one that began, and did not get as far as its setup. */
static bool is_hardly_begun(const struct log *log, const struct kept *kept)
{
    return log->at.sequence != kept->sequence && log->at.file == 1 &&
           log->at.lines < log->setup_lines;
}

bool log_take_up(struct log *log, struct selector *selector, const struct profile *profile,
                 struct card_clock *clock)
{
    uint32_t last = log->directory ? last_sequence(log->directory) : 0;
    enum keep_found found = KEEP_NONE;
    struct selector taken;
    struct kept kept;
    char why[WHY_ROOM];

    log->at.sequence = last;
    if (log->keep)
        found = keep_read(log->keep, &kept, why);
    if (found == KEEP_DAMAGED)
        tell("%s was not taken up: %s; the card begins fresh", log->keep, why);
    if (found != KEEP_SOUND)
        return false;
    if (!same_profile(&kept.profile, profile))
        fail("%s has a card of another profile: start with that one, or take the file away", log->keep);
    if (!selector_take_up(&taken, profile, kept.state) || selector_time(&taken) > LAST_MS) {
        tell("%s was not taken up: its state is not sound; the card begins fresh", log->keep);
        return false;
    }
    *selector = taken;
    log->continued = log->directory && kept.sequence != 0 && follow_log(log, &taken, &kept, last);
    if (log->continued && is_hardly_begun(log, &kept)) {
        tell("the last `fresh` came just before the end: the card begins fresh again");
        return false;
    }
    if (log->continued) {
        *selector = taken;
    } else {
        /* a new sequence, which begins with the state that was kept */
        if (log->directory)
            tell("the log does not reach the kept state: a new sequence begins with it");
        log->at.sequence = last + 1;
        log->at.file = 1;
        log->at.lines = log->octets = 0;
    }
    *clock = clock_after(log, &kept, selector,
                         !log->continued || log->at.sequence == kept.sequence);
    tell("%s was taken up at %llu ms", log->keep, (unsigned long long)selector_time(selector));
    return true;
}
