/*
 * The disk's thread. It alone writes the log, its answers and the kept state, so that the loop never
 * waits for a disk: the loop puts lines into one of two batches, the thread writes the other, puts it on
 * the disk, and only then keeps the state after it. So a kept state never runs ahead of its log.
 */
#ifndef LIVECARD_DISK_H
#define LIVECARD_DISK_H

#include "keep.h"

/* Begins the thread; either may be NULL. The directory of the log is there and its last file, if one goes on, is whole. */
void disk_start(const char *log_directory, const char *keep_path);

/* Whether there is room for as many octets of lines and answers as given. */
bool disk_has_room(size_t line, size_t answer);

/* Another file of the log begins here; `start` is the state that it begins with, NULL for a fresh one. */
bool disk_begin_file(uint32_t sequence, uint32_t file, const struct kept *start);

/* A file that is there goes on here: for the first lines after a restart. */
bool disk_go_on(uint32_t sequence, uint32_t file);

/* A line and its answer, for which there is room, and the state after them. */
void disk_put(const char *line, size_t line_length, const char *answer, size_t answer_length,
              const struct kept *after);

/* The state after an event that is in no log. */
void disk_keep(const struct kept *after);

/* Whether the log was stopped by a failure since its last beginning. */
bool disk_log_stopped(void);

/* Writes what is left, and ends the thread. */
void disk_end(void);

/* The name of a file of a log, with its ending: "log", "answers" or "start". */
int disk_name(char *name, size_t room, const char *directory, uint32_t sequence, uint32_t file,
              const char *ending);

#endif
