/* The host's files and words: Arm's semihosting, which an emulator or a debugger answers. */
#ifndef HOST_H
#define HOST_H
#include <stdint.h>
void say(const char *text);
void say_hex(uint32_t value);
void say_number(uint32_t value);
void stop(int status);
int open_file(const char *name, int writing); /* below 0 where it fails */
uint32_t read_file(int file, void *to, uint32_t length);
int write_file(int file, const void *from, uint32_t length); /* 0 where it fails */
int close_file(int file);                                    /* likewise */
int command_line(char *to, uint32_t length);                 /* likewise */
#endif
