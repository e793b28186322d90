/* What the files of the image share. */
#ifndef IMAGE_H
#define IMAGE_H
#include <stdint.h>
/* Makes a call on the stack that the header promises. */
void on_stack(void (*call)(void));
/* Makes such a call, and tells how many octets of the stack were written to. */
uint32_t octets_of(void (*call)(void));
/* Answers each log that the list names: 0, or 2 where a file is not as it has to be. */
int replay(const char *list);
/* Tells the deepest stack and the most instructions of each call, as found in so many rounds: 0, or 1 where a call is not answered rightly. */
int measure(uint32_t rounds);
/* Sends a station clock unit so many events: 0, or 1 where it answers otherwise than a card by itself does. */
int run_unit(uint32_t rounds);
#endif
