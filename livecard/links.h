/* The links' states, as the kernel tells them by netlink. */
#ifndef LIVECARD_LINKS_H
#define LIVECARD_LINKS_H

#include <stdbool.h>

/* What is told of an interface: its name, its index, 0 where it is gone, and whether frames can pass. */
typedef void link_told(void *whom, const char *name, int index, bool up);

/* Opens the socket and asks for the state of all interfaces. */
int links_open(void);

/* Hands on what has come, in its order. Where the kernel had no room for all of it, asks for all states anew. */
void links_read(int links, link_told *told, void *whom);

#endif
