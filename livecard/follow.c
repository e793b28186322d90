/* A pipe that does not wait, and a child that is started again. */
#include "follow.h"

#include <errno.h>
#include <fcntl.h>
#include <signal.h>
#include <stdio.h>
#include <string.h>
#include <sys/wait.h>
#include <unistd.h>

#include "clock.h"
#include "tell.h"

#define AGAIN_NS 1000000000u /* a second */
#define CANNOT_RUN 127

void follow_open(struct follow *follow, const char *command)
{
    memset(follow, 0, sizeof *follow);
    follow->command = command;
    follow->pipe = -1;
    follow->again = command ? 0 : UINT64_MAX;
}

/* The child's side: standard input from the pipe, no signal blocked or ignored. */
static void become(const char *command, int input)
{
    sigset_t none;

    sigemptyset(&none);
    if (dup2(input, STDIN_FILENO) < 0 || signal(SIGPIPE, SIG_DFL) == SIG_ERR ||
        sigprocmask(SIG_SETMASK, &none, NULL) < 0)
        _exit(CANNOT_RUN);
    execl("/bin/sh", "sh", "-c", command, (char *)NULL);
    _exit(CANNOT_RUN);
}

static void dies(struct follow *follow)
{
    if (follow->pipe >= 0)
        close(follow->pipe);
    follow->pipe = -1;
    if (follow->again == UINT64_MAX)
        follow->again = monotonic_ns() + AGAIN_NS;
}

void follow_start(struct follow *follow)
{
    static struct telling failed;
    int ends[2];

    if (!follow->command || follow->process || monotonic_ns() < follow->again)
        return;
    follow->again = UINT64_MAX;
    follow->is_slow = false;
    if (pipe2(ends, O_CLOEXEC) < 0) {
        tell_seldom(&failed, "--follow cannot be started: %s", strerror(errno));
        dies(follow);
        return;
    }
    follow->pipe = ends[1];
    follow->process = fork();
    if (follow->process == 0)
        become(follow->command, ends[0]);
    if (follow->process < 0 || fcntl(follow->pipe, F_SETFL, O_NONBLOCK) < 0) {
        tell_seldom(&failed, "--follow cannot be started: %s", strerror(errno));
        dies(follow);
    }
    if (follow->process < 0)
        follow->process = 0;
    close(ends[0]);
    follow->told = false;
    follow_write(follow);
}

static void put_word(const struct selector *selector, char word[WORD_ROOM])
{
    struct answer answer = selector_answer(selector, NURRISPANE_EQUIPMENT);
    char station[24] = "";

    if (profile_is_unit(&selector->profile)) {
        uint8_t source = selector_station_source(selector);

        if (source == NURRISPANE_NO_INPUT)
            snprintf(station, sizeof station, " station squelched");
        else
            snprintf(station, sizeof station, " station input %u", source);
    }
    if (answer.clock_state == NURRISPANE_LOCKED)
        snprintf(word, WORD_ROOM, "input %u%s\n", answer.selected, station);
    else
        snprintf(word, WORD_ROOM, "%s%s\n",
                 answer.clock_state == NURRISPANE_HOLDOVER ? "holdover" : "free run", station);
}

void follow_selector(struct follow *follow, const struct selector *selector)
{
    char word[WORD_ROOM];

    if (!follow->command)
        return;
    put_word(selector, word);
    if (strcmp(word, follow->word) == 0)
        return;
    memcpy(follow->word, word, sizeof word);
    follow->told = false;
    follow_write(follow);
}

void follow_write(struct follow *follow)
{
    if (follow->pipe < 0 || follow->told || follow->word[0] == 0)
        return;
    /* a pipe takes so few octets whole or not at all */
    follow->told = write(follow->pipe, follow->word, strlen(follow->word)) > 0;
    if (!follow->told && errno != EAGAIN && errno != EINTR) {
        tell("--follow does not read any more: %s", strerror(errno));
        dies(follow);
        return;
    }
    if (!follow->told && !follow->is_slow)
        tell("--follow is slow: it gets the last word when it reads again");
    follow->is_slow = !follow->told;
}

void follow_reap(struct follow *follow)
{
    int status;

    if (follow->process == 0 || waitpid(follow->process, &status, WNOHANG) != follow->process)
        return;
    if (WIFEXITED(status))
        tell("--follow ended with status %d, and is started again", WEXITSTATUS(status));
    else
        tell("--follow was ended by signal %d, and is started again", WTERMSIG(status));
    follow->process = 0;
    dies(follow);
}

bool follow_waits(const struct follow *follow)
{
    return follow->pipe >= 0 && !follow->told && follow->word[0] != 0;
}

const char *follow_status(const struct follow *follow)
{
    if (!follow->command)
        return "follow none";
    if (follow->pipe < 0)
        return "follow dead";
    return follow->is_slow ? "follow slow" : "follow runs";
}
