/* Two batches and a thread between them; files go on the disk once a batch, less than a second after a line came. */
#include "disk.h"

#include <errno.h>
#include <fcntl.h>
#include <limits.h>
#include <pthread.h>
#include <stdatomic.h>
#include <stdio.h>
#include <string.h>
#include <sys/stat.h>
#include <time.h>
#include <unistd.h>

#include "tell.h"

/* How long lines are gathered: with the writing itself less than a second. */
#define GATHER_MS 500
#define LOG_ROOM (4u << 20)
#define ANSWERS_ROOM (2u << 20)
#define MARKS 16
/* Beside the answers themselves: whole blocks of a disk. */
#define ROOM_FOR_ANSWERS (16u << 10)
#define STACK_OCTETS (256u << 10)
#define MS_A_SECOND 1000

/* A place in a batch where another file begins. */
struct mark {
    size_t log, answers;
    uint32_t sequence, file;
    bool is_new, has_start;
    struct kept start;
};

struct batch {
    char log[LOG_ROOM], answers[ANSWERS_ROOM];
    size_t log_length, answers_length, marks_length;
    struct mark marks[MARKS];
    bool has_state;
    struct kept state;
};

/* What the thread has open. */
struct files {
    int log, answers; /* -1: none */
    off_t log_whole, answers_whole; /* what is written in whole batches */
    uint32_t sequence, failed; /* the sequence that could not be written; 0 none */
};

static struct batch batches[2];
static struct batch *filling = &batches[0];
static pthread_mutex_t lock;
static pthread_cond_t work;
static pthread_t thread;
static bool started, ending;
static atomic_bool stopped;
static const char *directory, *keep_path;

int disk_name(char *name, size_t room, const char *log_directory, uint32_t sequence, uint32_t file,
              const char *suffix)
{
    return snprintf(name, room, "%s/card-%06u-%06u.%s", log_directory, sequence, file, suffix);
}

/* ---- the thread's side */

static void close_files(struct files *files)
{
    if (files->log >= 0 && close(files->log) < 0)
        tell("a file of the log was not closed well: %s", strerror(errno));
    if (files->answers >= 0 && close(files->answers) < 0)
        tell("a file of the log's answers was not closed well: %s", strerror(errno));
    files->log = files->answers = -1;
}

/* The log stops: what is on the disk is cut to the last whole batch. Told once, and the card goes on. */
static void stop_log(struct files *files, const char *what)
{
    int why = errno;

    if (files->log >= 0 && ftruncate(files->log, files->log_whole) < 0)
        tell("the log cannot be cut to its whole lines: %s", strerror(errno));
    if (files->answers >= 0 && ftruncate(files->answers, files->answers_whole) < 0)
        tell("the log's answers cannot be cut to their whole lines: %s", strerror(errno));
    tell("the log stops: %s: %s; the card goes on, and `fresh` begins a log anew", what,
         strerror(why));
    close_files(files);
    files->failed = files->sequence;
    atomic_store(&stopped, true);
}

/* Writes text; how much of it was written. */
static size_t put_text(int file, const char *text, size_t length)
{
    size_t done = 0;

    while (done < length) {
        ssize_t put = write(file, text + done, length - done);

        if (put > 0)
            done += (size_t)put;
        else if (put == 0 || errno != EINTR)
            break;
    }
    return done;
}

static size_t lines_in(const char *text, size_t length)
{
    size_t lines = 0;

    for (size_t i = 0; i < length; i++)
        lines += text[i] == '\n';
    return lines;
}

/* Where the first `lines` lines of a text end. */
static off_t end_of_lines(const char *text, size_t lines)
{
    const char *at = text;

    for (; lines > 0; lines--)
        at = strchr(at, '\n') + 1;
    return at - text;
}

/* On a full disk the log gives up some lines for the answers to the others: how many are left. */
static size_t make_room(struct files *files, const char *log, size_t written, size_t answers_length)
{
    size_t room = answers_length + ROOM_FOR_ANSWERS;
    size_t lines = written < room ? 0 : lines_in(log, written - room);

    if (ftruncate(files->log, files->log_whole + end_of_lines(log, lines)) < 0)
        tell("the log cannot be cut to its whole lines: %s", strerror(errno));
    return lines;
}

/* Writes a stretch of a batch to the open files. Of one that is not taken whole, the lines that have their answers stay. */
static void put_stretch(struct files *files, const char *log, size_t log_length,
                        const char *answers, size_t answers_length)
{
    size_t written, lines, answered;

    if (files->log < 0 || log_length == 0)
        return;
    written = put_text(files->log, log, log_length);
    int why = errno;
    lines = lines_in(log, written);
    if (written < log_length)
        lines = make_room(files, log, written, answers_length);
    answered = lines_in(answers, put_text(files->answers, answers,
                                          (size_t)end_of_lines(answers, lines)));
    if (answered == lines)
        errno = why;
    files->log_whole += end_of_lines(log, answered);
    files->answers_whole += end_of_lines(answers, answered);
    if (answered < lines_in(answers, answers_length) || fdatasync(files->log) < 0 ||
        fdatasync(files->answers) < 0)
        stop_log(files, "it cannot be written");
}

static int open_one(const struct mark *mark, const char *ending_of, off_t *whole)
{
    char name[PATH_MAX];
    int flags = O_WRONLY | O_APPEND | O_CLOEXEC | (mark->is_new ? O_CREAT | O_EXCL : 0), file;

    disk_name(name, sizeof name, directory, mark->sequence, mark->file, ending_of);
    file = open(name, flags, 0640);
    *whole = file < 0 ? 0 : lseek(file, 0, SEEK_END);
    return file;
}

/* Goes on to another file. A sequence that could not be written is not gone on with: it would have a gap. */
static void open_files(struct files *files, const struct mark *mark)
{
    char name[PATH_MAX];

    close_files(files);
    files->sequence = mark->sequence;
    if (mark->sequence == files->failed)
        return;
    disk_name(name, sizeof name, directory, mark->sequence, mark->file, "start");
    if (mark->has_start && !keep_write(name, &mark->start)) {
        stop_log(files, name);
        return;
    }
    files->log = open_one(mark, "log", &files->log_whole);
    files->answers = open_one(mark, "answers", &files->answers_whole);
    if (files->log < 0 || files->answers < 0 || !keep_sync_directory(name)) {
        stop_log(files, "its next file cannot be opened");
        return;
    }
    atomic_store(&stopped, false);
}

static void keep_state(struct files *files, struct batch *batch)
{
    static struct telling failed;

    if (!keep_path || !batch->has_state)
        return;
    /* a state whose log has stopped stands for itself */
    if (batch->state.sequence == files->failed)
        batch->state.sequence = 0;
    if (!keep_write(keep_path, &batch->state))
        tell_seldom(&failed, "the card's state was not kept in %s: %s", keep_path, strerror(errno));
}

static void write_batch(struct files *files, struct batch *batch)
{
    size_t log = 0, answers = 0;

    for (size_t i = 0; i < batch->marks_length; i++) {
        const struct mark *mark = &batch->marks[i];

        put_stretch(files, batch->log + log, mark->log - log, batch->answers + answers,
                    mark->answers - answers);
        log = mark->log;
        answers = mark->answers;
        open_files(files, mark);
    }
    put_stretch(files, batch->log + log, batch->log_length - log, batch->answers + answers,
                batch->answers_length - answers);
    keep_state(files, batch);
    batch->log_length = batch->answers_length = batch->marks_length = 0;
    batch->has_state = false;
}

static bool is_empty(const struct batch *batch)
{
    return batch->log_length == 0 && batch->marks_length == 0 && !batch->has_state;
}

/* Waits, with the lock, until there is something to write and lines have been gathered for a while. */
static void wait_for_work(void)
{
    struct timespec until;

    while (is_empty(filling) && !ending)
        pthread_cond_wait(&work, &lock);
    clock_gettime(CLOCK_MONOTONIC, &until);
    until.tv_nsec += GATHER_MS % MS_A_SECOND * 1000000;
    until.tv_sec += GATHER_MS / MS_A_SECOND + until.tv_nsec / 1000000000;
    until.tv_nsec %= 1000000000;
    while (!ending && pthread_cond_timedwait(&work, &lock, &until) != ETIMEDOUT)
        continue;
}

static void *write_batches(void *unused)
{
    struct files files = {-1, -1, 0, 0, 0, 0};

    (void)unused;
    pthread_mutex_lock(&lock);
    for (;;) {
        struct batch *writing;

        wait_for_work();
        if (is_empty(filling) && ending)
            break;
        writing = filling;
        filling = writing == &batches[0] ? &batches[1] : &batches[0];
        pthread_mutex_unlock(&lock);
        write_batch(&files, writing);
        pthread_mutex_lock(&lock);
    }
    pthread_mutex_unlock(&lock);
    close_files(&files);
    return NULL;
}

/* ---- the loop's side */

void disk_start(const char *log_directory, const char *keep)
{
    pthread_mutexattr_t inherits;
    pthread_condattr_t monotonic;
    pthread_attr_t small;

    directory = log_directory;
    keep_path = keep;
    if (!log_directory && !keep)
        return;
    /* the loop may have real-time priority and the thread has not: who holds the lock gets the waiter's */
    if (pthread_mutexattr_init(&inherits) ||
        pthread_mutexattr_setprotocol(&inherits, PTHREAD_PRIO_INHERIT) ||
        pthread_mutex_init(&lock, &inherits) || pthread_condattr_init(&monotonic) ||
        pthread_condattr_setclock(&monotonic, CLOCK_MONOTONIC) || pthread_cond_init(&work, &monotonic) ||
        pthread_attr_init(&small) || pthread_attr_setstacksize(&small, STACK_OCTETS) ||
        pthread_create(&thread, &small, write_batches, NULL))
        fail("the disk's thread cannot be started");
    started = true;
}

/* Wakes the thread for the first thing in a batch: for what follows it gathers by itself. */
static void unlock_and_wake(bool was_empty)
{
    if (was_empty)
        pthread_cond_signal(&work);
    pthread_mutex_unlock(&lock);
}

bool disk_has_room(size_t line, size_t answer)
{
    bool has_room;

    pthread_mutex_lock(&lock);
    has_room = filling->log_length + line <= LOG_ROOM && filling->answers_length + answer <= ANSWERS_ROOM;
    pthread_mutex_unlock(&lock);
    return has_room;
}

static bool put_mark(uint32_t sequence, uint32_t file, bool is_new, const struct kept *start)
{
    bool was_empty, has_room;

    pthread_mutex_lock(&lock);
    was_empty = is_empty(filling);
    has_room = filling->marks_length < MARKS;
    if (has_room) {
        struct mark *mark = &filling->marks[filling->marks_length++];

        mark->log = filling->log_length;
        mark->answers = filling->answers_length;
        mark->sequence = sequence;
        mark->file = file;
        mark->is_new = is_new;
        mark->has_start = start != NULL;
        if (start)
            mark->start = *start;
    }
    unlock_and_wake(was_empty);
    return has_room;
}

bool disk_begin_file(uint32_t sequence, uint32_t file, const struct kept *start)
{
    return put_mark(sequence, file, true, start);
}

bool disk_go_on(uint32_t sequence, uint32_t file)
{
    return put_mark(sequence, file, false, NULL);
}

void disk_put(const char *line, size_t line_length, const char *answer, size_t answer_length,
              const struct kept *after)
{
    bool was_empty;

    pthread_mutex_lock(&lock);
    was_empty = is_empty(filling);
    memcpy(filling->log + filling->log_length, line, line_length);
    memcpy(filling->answers + filling->answers_length, answer, answer_length);
    filling->log_length += line_length;
    filling->answers_length += answer_length;
    filling->state = *after;
    filling->has_state = true;
    unlock_and_wake(was_empty);
}

void disk_keep(const struct kept *after)
{
    bool was_empty;

    pthread_mutex_lock(&lock);
    was_empty = is_empty(filling);
    filling->state = *after;
    filling->has_state = true;
    unlock_and_wake(was_empty);
}

bool disk_log_stopped(void)
{
    return atomic_load(&stopped);
}

void disk_end(void)
{
    if (!started)
        return;
    pthread_mutex_lock(&lock);
    ending = true;
    pthread_cond_signal(&work);
    pthread_mutex_unlock(&lock);
    if (pthread_join(thread, NULL))
        tell("the disk's thread did not end well");
    started = false;
}
