/* A selector's state as it is kept in a file: whole, with a checksum, and with where its log stands. */
#ifndef LIVECARD_KEEP_H
#define LIVECARD_KEEP_H

#include "selector.h"

#define BOOT_ROOM 40
#define WHY_ROOM 160

struct kept {
    struct profile profile;
    uint32_t sequence; /* of the log that leads to this state; 0 where there is none */
    uint32_t file;     /* of that sequence */
    uint64_t lines;    /* of that file, after which the state is this one */
    int64_t zero;      /* of the card's clock, good until the machine starts again */
    char boot[BOOT_ROOM]; /* which start of the machine this was */
    uint8_t state[STATE_ROOM];
};

enum keep_found { KEEP_NONE, KEEP_SOUND, KEEP_DAMAGED };

/* Reads a file; for KEEP_DAMAGED `why` says what is wrong with it. */
enum keep_found keep_read(const char *path, struct kept *kept, char why[WHY_ROOM]);

/* Writes a file whole or not at all, on the disk when it returns; false with errno. */
bool keep_write(const char *path, const struct kept *kept);

/* Puts a directory's new names on the disk: that of `path`. */
bool keep_sync_directory(const char *path);

/* The name of this start of the machine; empty where the system does not tell. */
void keep_boot(char boot[BOOT_ROOM]);

#endif
