/*
 * The Ethernet ports: packet sockets, from which frames come with the kernel's times of arrival and
 * with their VLAN tags, and to which the card's own frames go. linuxptp's raw.c is the model.
 */
#ifndef LIVECARD_PORTS_H
#define LIVECARD_PORTS_H

#include <net/if.h>
#include <stdbool.h>

#include "selector.h"
#include "tell.h"

/* So many frames are taken from a socket by one call. */
#define BATCH 32
#define TAG_OCTETS 4

/* A frame that has come: from its destination address on, without FCS. */
struct frame {
    uint64_t at; /* ns of CLOCK_MONOTONIC */
    size_t length;
    uint8_t octets[LONGEST_FRAME + TAG_OCTETS];
};

/* What a port has seen and done. */
struct port_counts {
    unsigned long received; /* given to the selector */
    unsigned long oversized; /* longer than a line of a log can hold: not given */
    unsigned long dropped; /* by the kernel, for want of room */
    unsigned long sent;
    unsigned long unsent; /* refused by the system */
};

struct port {
    int socket; /* -1: not mapped */
    int index;  /* of the interface; 0 where it is gone */
    bool up;
    char name[IF_NAMESIZE];
    uint8_t address[NURRISPANE_SOURCE_OCTETS];
    struct port_counts counts;
    struct telling drops, failed;
    /* frames taken from the socket and not yet handed on, in their order */
    struct frame batch[BATCH];
    size_t first, count;
    bool dry; /* nothing was left in the socket when it was last asked in this round */
};

struct ports {
    struct port port[PORTS];
    bool every_frame; /* not only those that can be ESMC */
    unsigned fills;   /* how often sockets may still be asked in this round */
};

void ports_init(struct ports *ports, bool every_frame);

/* Maps a port to an interface; ends the program where that cannot be. */
void port_open(struct ports *ports, unsigned number, const char *name);

/* Whether a port is mapped. */
bool port_is_mapped(const struct port *port);

/* Binds a mapped port to its interface again, which has come back under another index. */
void port_bind_again(struct ports *ports, unsigned number, int index);

/* Begins a round: every socket is to be asked again. */
void ports_begin(struct ports *ports);

/*
 * The earliest frame of all ports that came up to `until`, ns of CLOCK_MONOTONIC; NULL where there is
 * none, or where the round has taken as many as it may. It stays good until the next call. `number` is
 * then its port's.
 */
const struct frame *ports_next(struct ports *ports, uint64_t until, unsigned *number);

/* After NULL: whether a socket may still hold frames that came before. Then the time must not go on. */
bool ports_are_behind(const struct ports *ports);

/* Whether frames were taken from a socket and not handed on, so that no socket will say so. */
bool ports_have_more(const struct ports *ports);

/* Sends a frame. */
void port_send(struct port *port, const uint8_t frame[NURRISPANE_FRAME_OCTETS]);

/* Asks the kernel what it had to drop, and tells it. */
void ports_count_drops(struct ports *ports);

#endif
