/* Clients with buffers of fixed size: none is waited for. */
#include "console.h"

#include <errno.h>
#include <fcntl.h>
#include <stdio.h>
#include <string.h>
#include <sys/epoll.h>
#include <sys/socket.h>
#include <sys/stat.h>
#include <sys/un.h>
#include <unistd.h>

#include "clock.h"
#include "tell.h"

#define WAITING 16
/* A flood of lines gets so many answers before frames, timer and senders have their turn. */
#define LINES_A_ROUND 32

/* ---- opening */

static void watch(struct console *console, uint32_t id, uint32_t events)
{
    struct client *client = &console->clients[id];
    struct epoll_event event = {.events = events, .data.u32 = console->first_id + id};
    int how = client->is_watched ? EPOLL_CTL_MOD : EPOLL_CTL_ADD;

    if (client->is_watched && client->watched == events)
        return;
    if (epoll_ctl(console->epoll, how, client->in, &event) < 0)
        tell("a console cannot be watched: %s", strerror(errno));
    client->is_watched = true;
    client->watched = events;
}

static void begin_client(struct console *console, uint32_t id, int in, int out)
{
    struct client *client = &console->clients[id];

    memset(client, 0, sizeof *client);
    client->in = in;
    client->out = out;
    client->heard = monotonic_ns();
    watch(console, id, EPOLLIN);
}

static void end_client(struct console *console, uint32_t id)
{
    struct client *client = &console->clients[id];

    if (epoll_ctl(console->epoll, EPOLL_CTL_DEL, client->in, NULL) < 0)
        tell("a console cannot be left: %s", strerror(errno));
    /* standard input and output stay open: their numbers are not to be given to others */
    if (client->in != STDIN_FILENO)
        close(client->in);
    client->in = client->out = -1;
    client->said_length = client->replies_length = 0;
}

/* Whether a card answers at a path already. */
static bool is_answered(const struct sockaddr_un *place)
{
    int other = socket(AF_UNIX, SOCK_STREAM | SOCK_CLOEXEC, 0);
    bool answered =
        other >= 0 && connect(other, (const struct sockaddr *)place, sizeof *place) == 0;

    if (other >= 0)
        close(other);
    return answered;
}

static void open_socket(struct console *console)
{
    struct sockaddr_un place = {.sun_family = AF_UNIX};
    struct stat found;

    if (strlen(console->path) >= sizeof place.sun_path)
        fail("--console %s: the path is too long", console->path);
    memcpy(place.sun_path, console->path, strlen(console->path));
    if (is_answered(&place))
        fail("--console %s: another card answers there", console->path);
    if (lstat(console->path, &found) == 0 && S_ISSOCK(found.st_mode) && unlink(console->path) < 0)
        fail("--console %s cannot be taken: %s", console->path, strerror(errno));
    console->listening = socket(AF_UNIX, SOCK_STREAM | SOCK_NONBLOCK | SOCK_CLOEXEC, 0);
    mode_t mask = umask(0117);
    if (console->listening < 0 ||
        bind(console->listening, (struct sockaddr *)&place, sizeof place) < 0 ||
        listen(console->listening, WAITING) < 0)
        fail("--console %s: %s", console->path, strerror(errno));
    umask(mask);
}

void console_open(struct console *console, const char *path, int epoll, uint32_t first_id)
{
    memset(console, 0, sizeof *console);
    console->listening = -1;
    console->path = path;
    console->epoll = epoll;
    console->first_id = first_id;
    for (uint32_t id = 0; id < CLIENTS; id++)
        console->clients[id].in = -1;
    if (path)
        open_socket(console);
    if (isatty(STDIN_FILENO))
        begin_client(console, 0, STDIN_FILENO, STDOUT_FILENO);
}

/* A place for a client: where all are taken, that of the one that has said nothing for longest. */
static uint32_t place_for_client(struct console *console)
{
    uint32_t silent = CLIENTS;

    for (uint32_t id = 0; id < CLIENTS; id++) {
        const struct client *client = &console->clients[id];

        if (client->in < 0)
            return id;
        if (client->in != STDIN_FILENO &&
            (silent == CLIENTS || client->heard < console->clients[silent].heard))
            silent = id;
    }
    tell("a new console takes the place of the one that was silent for longest");
    end_client(console, silent);
    return silent;
}

void console_accept(struct console *console)
{
    static struct telling failed;
    int client = accept4(console->listening, NULL, NULL, SOCK_NONBLOCK | SOCK_CLOEXEC);

    if (client >= 0)
        begin_client(console, place_for_client(console), client, client);
    else if (errno != EAGAIN && errno != EINTR && errno != ECONNABORTED)
        tell_seldom(&failed, "a console cannot be taken: %s", strerror(errno));
}

/* ---- lines in and out */

static ssize_t put(const struct client *client)
{
    if (client->out == STDOUT_FILENO)
        return write(client->out, client->replies, client->replies_length);
    return send(client->out, client->replies, client->replies_length, MSG_DONTWAIT | MSG_NOSIGNAL);
}

/* Takes replies to a client, as far as it takes them now. */
static void flush(struct console *console, uint32_t id)
{
    struct client *client = &console->clients[id];
    ssize_t taken = 1;

    while (taken > 0 && client->replies_length > 0) {
        taken = put(client);
        if (taken > 0) {
            client->replies_length -= (size_t)taken;
            memmove(client->replies, client->replies + taken, client->replies_length);
        }
    }
    if (taken < 0 && errno != EAGAIN && errno != EINTR) {
        end_client(console, id);
    } else if (client->ended && client->replies_length == 0 && client->said_length == 0) {
        end_client(console, id);
    } else {
        /* who does not take its replies is not read any further */
        bool reads = !client->ended && client->said_length < SAID_ROOM &&
                     client->replies_length < REPLY_ROOM;
        watch(console, id,
              (reads ? (uint32_t)EPOLLIN : 0) | (client->replies_length ? (uint32_t)EPOLLOUT : 0));
    }
}

static void hear(struct client *client)
{
    size_t room = SAID_ROOM - client->said_length;
    ssize_t got;

    if (client->ended || room == 0 || client->replies_length >= REPLY_ROOM)
        return;
    got = read(client->in, client->said + client->said_length, room);
    if (got > 0) {
        client->said_length += (size_t)got;
        client->heard = monotonic_ns();
    } else if (got == 0 || (errno != EAGAIN && errno != EINTR)) {
        client->ended = true;
        /* what has no LF is no line */
        while (client->said_length > 0 && client->said[client->said_length - 1] != '\n')
            client->said_length--;
    }
}

void console_client(struct console *console, uint32_t id)
{
    struct client *client = &console->clients[id];

    if (client->in < 0)
        return;
    hear(client);
    flush(console, id);
}

static void reply(struct client *client, const char *text)
{
    size_t length = strnlen(text, REPLY_ROOM - 1);

    memcpy(client->replies + client->replies_length, text, length);
    client->replies[client->replies_length + length] = '\n';
    client->replies_length += length + 1;
}

/* The next line of a client, its LF and CR taken off; NULL where none is whole, or it has to take replies first. */
static char *next_line(struct client *client, char line[SAID_ROOM])
{
    char *end;
    size_t length;

    if (client->replies_length >= REPLY_ROOM || client->said_length == 0)
        return NULL;
    end = memchr(client->said, '\n', client->said_length);
    length = end ? (size_t)(end - client->said) : client->said_length;
    if (!end && client->said_length < SAID_ROOM)
        return NULL;
    bool skipped = client->too_long;
    client->too_long = !end;
    memcpy(line, client->said, length < SAID_ROOM ? length : 0);
    client->said_length -= end ? length + 1 : length;
    memmove(client->said, client->said + (end ? length + 1 : length), client->said_length);
    if (!end && !skipped)
        reply(client, "cannot: the line is too long");
    line[end && !skipped ? length : 0] = 0;
    line[strcspn(line, "\r")] = 0;
    return line;
}

/* Answers some lines of a client. Whether it may have more. */
static bool answer_client(struct console *console, uint32_t id, console_answers *answers, void *whom)
{
    struct client *client = &console->clients[id];
    char line[SAID_ROOM], told[REPLY_ROOM];
    int left = LINES_A_ROUND;

    for (; left > 0 && next_line(client, line); left--) {
        if (line[strspn(line, " \t")] == 0)
            continue;
        answers(whom, line, told);
        reply(client, told);
    }
    flush(console, id);
    return left == 0 && client->in >= 0;
}

bool console_answer(struct console *console, console_answers *answers, void *whom)
{
    bool more = false;

    for (uint32_t id = 0; id < CLIENTS; id++)
        if (console->clients[id].in >= 0 && console->clients[id].said_length > 0)
            more = answer_client(console, id, answers, whom) || more;
    return more;
}

void console_close(struct console *console)
{
    if (console->path && unlink(console->path) < 0)
        tell("--console %s cannot be taken away: %s", console->path, strerror(errno));
}
