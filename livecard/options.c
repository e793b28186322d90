/* Words of the command line, one after the other. */
#include "options.h"

#include <stdio.h>
#include <stdlib.h>
#include <string.h>
#include <unistd.h>

#include "tell.h"

#define MIB (1u << 20)
#define LOG_MIB 64
#define MOST_LOG_MIB 1024
#define WORST_PLACE 8
#define MOST_MINIMUM 8

static const char usage[] =
    "usage: livecard --port PORT=INTERFACE .. [--setup FILE.words] [--console PATH] [--log DIR]\n"
    "                [--log-size MIB] [--follow CMD] [--keep FILE] [--option 2 --place P --marks M]\n"
    "                [--unit MINIMUM] [--signals link|console] [--every-frame] [--real-time] [--user NAME]\n"
    "       livecard --words [--option 2] [--unit MINIMUM] <WORDS     the lines of a log for them\n"
    "       livecard --replay START <LOG                              the answers of a file of a log\n"
    "\n"
    "A reference card on Ethernet: the proved selector on packet sockets. docs/LIVECARD.md is the guide.\n"
    "It ends at `quit`, SIGTERM or SIGINT. Exit status: 0 fine, 2 trouble.\n";

/* The words that are left. */
struct words {
    int count;
    char **at;
};

static const char *next(struct words *words, const char *option)
{
    if (words->count == 0)
        fail("%s: a word is missing", option);
    words->count--;
    return *words->at++;
}

static unsigned number(const char *option, const char *text, unsigned least, unsigned most, int base)
{
    static const char digits[] = "0123456789abcdef";
    char *end;
    unsigned long value = strtoul(text, &end, base);

    if (*text == 0 || !strchr(digits, *text) || *end != 0 || value < least || value > most)
        fail(base == 16 ? "%s %s: %x to %x" : "%s %s: %u to %u", option, text, least, most);
    return (unsigned)value;
}

/* PORT=INTERFACE, as many as there are. */
static void read_ports(struct words *words, struct options *options)
{
    if (words->count == 0 || words->at[0][0] == '-')
        fail("--port: PORT=INTERFACE is missing");
    while (words->count > 0 && words->at[0][0] != '-') {
        const char *text = next(words, "--port"), *equals = strchr(text, '=');
        char digits[4] = "";

        if (!equals || equals[1] == 0 || equals == text || (size_t)(equals - text) >= sizeof digits)
            fail("--port %s: a port is PORT=INTERFACE, as 4=eth1", text);
        memcpy(digits, text, (size_t)(equals - text));
        unsigned port = number("--port", digits, 0, PORTS - 1, 10);
        if (options->interface[port])
            fail("--port %s: port %u is mapped already", text, port);
        for (unsigned other = 0; other < PORTS; other++)
            if (options->interface[other] && strcmp(options->interface[other], equals + 1) == 0)
                fail("--port %s: %s is port %u's already", text, equals + 1, other);
        options->interface[port] = equals + 1;
    }
}

static bool read_signals(const char *text)
{
    if (strcmp(text, "console") != 0 && strcmp(text, "link") != 0)
        fail("--signals %s: link or console", text);
    return strcmp(text, "console") == 0;
}

/* An option of the profile; false where it is none. */
static bool read_profile(struct words *words, const char *option, struct profile *profile)
{
    if (strcmp(option, "--option") == 0)
        profile->option = (uint8_t)number(option, next(words, option), 1, 2, 10);
    else if (strcmp(option, "--place") == 0)
        profile->place = (uint8_t)number(option, next(words, option), 0, WORST_PLACE, 10);
    else if (strcmp(option, "--marks") == 0)
        profile->marks = (uint16_t)number(option, next(words, option), 0, UINT16_MAX, 16);
    else if (strcmp(option, "--unit") == 0)
        profile->minimum = (uint8_t)number(option, next(words, option), 1, MOST_MINIMUM, 10);
    else
        return false;
    return true;
}

/* An option with a text; false where it is none. */
static bool read_text(struct words *words, const char *option, struct options *options)
{
    const struct {
        const char *name;
        const char **text;
    } texts[] = {{"--setup", &options->setup}, {"--console", &options->console},
                 {"--log", &options->log},     {"--keep", &options->keep},
                 {"--follow", &options->follow}, {"--user", &options->user}};

    for (size_t i = 0; i < sizeof texts / sizeof *texts; i++)
        if (strcmp(option, texts[i].name) == 0) {
            *texts[i].text = next(words, option);
            return true;
        }
    return false;
}

static void read_option(struct words *words, const char *option, struct options *options)
{
    if (read_profile(words, option, &options->profile) || read_text(words, option, options))
        return;
    if (strcmp(option, "--port") == 0) {
        read_ports(words, options);
    } else if (strcmp(option, "--log-size") == 0) {
        options->log_limit = (uint64_t)number(option, next(words, option), 1, MOST_LOG_MIB, 10) * MIB;
    } else if (strcmp(option, "--signals") == 0) {
        options->console_signals = read_signals(next(words, option));
    } else if (strcmp(option, "--every-frame") == 0) {
        options->every_frame = true;
    } else if (strcmp(option, "--real-time") == 0) {
        options->real_time = true;
    } else if (strcmp(option, "--words") == 0) {
        options->task = TASK_WORDS;
    } else if (strcmp(option, "--replay") == 0) {
        options->task = TASK_REPLAY;
        options->start = next(words, option);
    } else {
        fail("no such option: %s; --help says which there are", option);
    }
}

void options_read(int count, char **all, struct options *options)
{
    struct words words = {count - 1, all + 1};
    bool mapped = false;

    memset(options, 0, sizeof *options);
    options->profile.option = NURRISPANE_OPTION_1;
    options->log_limit = (uint64_t)LOG_MIB * MIB;
    while (words.count > 0) {
        const char *option = next(&words, "");

        if (strcmp(option, "--help") == 0 || strcmp(option, "-h") == 0) {
            if (fputs(usage, stdout) == EOF || fflush(stdout) == EOF)
                exit(2);
            exit(0);
        }
        read_option(&words, option, options);
    }
    for (unsigned port = 0; port < PORTS; port++)
        mapped = mapped || options->interface[port];
    if (options->task == TASK_RUN && !mapped)
        fail("no port is mapped: --port PORT=INTERFACE ..");
    if (options->profile.option == NURRISPANE_OPTION_1 &&
        (options->profile.place || options->profile.marks))
        fail("--place and --marks are of option II alone");
}
