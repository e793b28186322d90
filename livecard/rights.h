/* What the program may do: real-time priority where asked for, and no rights once the sockets are open. */
#ifndef LIVECARD_RIGHTS_H
#define LIVECARD_RIGHTS_H

/* The loop's thread gets real-time priority, and its memory stays in place. Ends the program where it may not. */
void rights_real_time(void);

/* Becomes a user, where one is named, and drops every capability; its children get none either. */
void rights_drop(const char *user);

#endif
