/* The kept form: a head of fixed numbers, the state as the library has it, and a sum over all of it. */
#include "keep.h"

#include <errno.h>
#include <fcntl.h>
#include <limits.h>
#include <stdio.h>
#include <string.h>
#include <sys/stat.h>
#include <unistd.h>

#define FORM 1
#define ORDER 0x01020304u /* as this machine has it: a state is read by machines of the same order */
#define SUM_OCTETS 8
#define HEAD_OCTETS (8 + 4 + 4 + 4 + 8 + 4 + 4 + 8 + 8 + BOOT_ROOM + 4)
#define KEPT_ROOM (HEAD_OCTETS + STATE_ROOM + SUM_OCTETS)
#define BOOT_FILE "/proc/sys/kernel/random/boot_id"

static const char magic[8] = {'n', 'u', 'r', 'r', 'k', 'e', 'p', 't'};

/* CRC-64 of ECMA-182, reflected. */
static uint64_t sum_of(const uint8_t *octets, size_t length)
{
    uint64_t sum = UINT64_MAX;

    for (size_t i = 0; i < length; i++) {
        sum ^= octets[i];
        for (int bit = 0; bit < 8; bit++)
            sum = sum >> 1 ^ (sum & 1 ? 0xc96c5795d7870f42u : 0);
    }
    return ~sum;
}

static void put(uint8_t **at, const void *octets, size_t length)
{
    memcpy(*at, octets, length);
    *at += length;
}

static void put_number(uint8_t **at, uint64_t number, size_t length)
{
    for (size_t i = 0; i < length; i++, number >>= 8)
        *(*at)++ = (uint8_t)number;
}

static uint64_t take_number(const uint8_t **at, size_t length)
{
    uint64_t number = 0;

    for (size_t i = 0; i < length; i++)
        number |= (uint64_t)*(*at)++ << (8 * i);
    return number;
}

static size_t put_kept(const struct kept *kept, uint8_t octets[KEPT_ROOM])
{
    size_t state = selector_state_octets(&kept->profile);
    uint32_t order = ORDER;
    uint8_t *at = octets;

    put(&at, magic, sizeof magic);
    put_number(&at, FORM, 4);
    put_number(&at, NURRISPANE_VERSION, 4);
    put(&at, &order, sizeof order);
    put_number(&at, kept->profile.option, 1);
    put_number(&at, kept->profile.place, 1);
    put_number(&at, kept->profile.marks, 2);
    put_number(&at, kept->profile.minimum, 4);
    put_number(&at, kept->sequence, 4);
    put_number(&at, kept->file, 4);
    put_number(&at, kept->lines, 8);
    put_number(&at, (uint64_t)kept->zero, 8);
    put(&at, kept->boot, BOOT_ROOM);
    put_number(&at, state, 4);
    put(&at, kept->state, state);
    put_number(&at, sum_of(octets, (size_t)(at - octets)), SUM_OCTETS);
    return (size_t)(at - octets);
}

/* What is wrong with a file's octets, or NULL. */
static const char *take_kept(const uint8_t *octets, size_t length, struct kept *kept)
{
    const uint8_t *at = octets + sizeof magic, *end;
    uint32_t order = ORDER;

    if (length < HEAD_OCTETS + SUM_OCTETS || length > KEPT_ROOM ||
        memcmp(octets, magic, sizeof magic) != 0)
        return "it is no kept card";
    end = octets + length - SUM_OCTETS;
    if (take_number(&end, SUM_OCTETS) != sum_of(octets, length - SUM_OCTETS))
        return "its checksum is wrong";
    if (take_number(&at, 4) != FORM || take_number(&at, 4) != NURRISPANE_VERSION ||
        memcmp(at, &order, sizeof order) != 0)
        return "it is of another version, or of another machine's byte order";
    at += sizeof order;
    kept->profile.option = (uint8_t)take_number(&at, 1);
    kept->profile.place = (uint8_t)take_number(&at, 1);
    kept->profile.marks = (uint16_t)take_number(&at, 2);
    kept->profile.minimum = (uint8_t)take_number(&at, 4);
    kept->sequence = (uint32_t)take_number(&at, 4);
    kept->file = (uint32_t)take_number(&at, 4);
    kept->lines = take_number(&at, 8);
    kept->zero = (int64_t)take_number(&at, 8);
    memcpy(kept->boot, at, BOOT_ROOM);
    kept->boot[BOOT_ROOM - 1] = 0;
    at += BOOT_ROOM;
    size_t state = take_number(&at, 4);
    if (state != selector_state_octets(&kept->profile) || length != HEAD_OCTETS + state + SUM_OCTETS)
        return "its length is wrong";
    memset(kept->state, 0, STATE_ROOM);
    memcpy(kept->state, at, state);
    return NULL;
}

/* Reads up to `room` octets of a file; -1 with errno. */
static ssize_t read_file(const char *path, uint8_t *octets, size_t room)
{
    int file = open(path, O_RDONLY | O_CLOEXEC);
    size_t length = 0;
    ssize_t got = 1;

    if (file < 0)
        return -1;
    while (got > 0 && length < room) {
        got = read(file, octets + length, room - length);
        if (got < 0 && errno == EINTR)
            got = 1;
        else if (got > 0)
            length += (size_t)got;
    }
    int saved = errno;
    close(file);
    errno = saved;
    return got < 0 ? -1 : (ssize_t)length;
}

enum keep_found keep_read(const char *path, struct kept *kept, char why[WHY_ROOM])
{
    uint8_t octets[KEPT_ROOM + 1];
    ssize_t length = read_file(path, octets, sizeof octets);
    const char *wrong;

    if (length < 0 && errno == ENOENT)
        return KEEP_NONE;
    wrong = length < 0 ? strerror(errno) : take_kept(octets, (size_t)length, kept);
    if (wrong)
        snprintf(why, WHY_ROOM, "%s", wrong);
    return wrong ? KEEP_DAMAGED : KEEP_SOUND;
}

static bool write_all(int file, const uint8_t *octets, size_t length)
{
    while (length > 0) {
        ssize_t put = write(file, octets, length);

        if (put < 0 && errno == EINTR)
            continue;
        if (put <= 0)
            return false;
        octets += put;
        length -= (size_t)put;
    }
    return true;
}

bool keep_sync_directory(const char *path)
{
    char directory[PATH_MAX];
    const char *slash = strrchr(path, '/');
    int length = slash ? (int)(slash - path) + 1 : 1, opened;
    bool synced;

    snprintf(directory, sizeof directory, "%.*s", length, slash ? path : ".");
    opened = open(directory, O_RDONLY | O_DIRECTORY | O_CLOEXEC);
    if (opened < 0)
        return false;
    synced = fsync(opened) == 0;
    return close(opened) == 0 && synced;
}

bool keep_write(const char *path, const struct kept *kept)
{
    uint8_t octets[KEPT_ROOM];
    char beside[PATH_MAX];
    size_t length = put_kept(kept, octets);
    bool whole;
    int file;

    if ((size_t)snprintf(beside, sizeof beside, "%s.new", path) >= sizeof beside) {
        errno = ENAMETOOLONG;
        return false;
    }
    file = open(beside, O_WRONLY | O_CREAT | O_TRUNC | O_CLOEXEC, 0640);
    if (file < 0)
        return false;
    whole = write_all(file, octets, length) && fsync(file) == 0;
    int saved = errno;
    whole = close(file) == 0 && whole;
    if (whole && rename(beside, path) == 0)
        return keep_sync_directory(path);
    if (!whole) {
        unlink(beside);
        errno = saved;
    }
    return false;
}

void keep_boot(char boot[BOOT_ROOM])
{
    ssize_t length = read_file(BOOT_FILE, (uint8_t *)boot, BOOT_ROOM - 1);

    memset(boot + (length < 0 ? 0 : length), 0, BOOT_ROOM - (size_t)(length < 0 ? 0 : length));
}
