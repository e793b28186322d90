/* What the card replies to a line of its console. */
#ifndef LIVECARD_REPLY_H
#define LIVECARD_REPLY_H

#include "card.h"

/* A `console_answers`: `whom` is a struct card. */
void reply_to(void *whom, char *line, char reply[REPLY_ROOM]);

#endif
