#include "host.h"

enum { OPEN = 0x01, CLOSE = 0x02, SAY = 0x04, WRITE = 0x05, READ = 0x06, COMMAND_LINE = 0x15, EXIT_EXTENDED = 0x20 };
enum { READ_BINARY = 1, WRITE_BINARY = 5 };
#define APPLICATION_EXIT UINT32_C(0x20026)

static uint32_t ask_host(uint32_t operation, const void *block)
{
    register uint32_t r0 __asm__("r0") = operation;
    register const void *r1 __asm__("r1") = block;

    __asm__ volatile("bkpt 0xab" : "+r"(r0) : "r"(r1) : "memory");
    return r0;
}

void say(const char *text)
{
    ask_host(SAY, text);
}

void say_hex(uint32_t value)
{
    char text[9];

    for (int i = 7; i >= 0; i--, value >>= 4)
        text[i] = "0123456789abcdef"[value & 15];
    text[8] = 0;
    say(text);
}

void say_number(uint32_t value)
{
    char text[11], *at = text + 10;

    *at = 0;
    do
        *--at = (char)('0' + value % 10);
    while ((value /= 10) != 0);
    say(at);
}

void stop(int status)
{
    const uint32_t block[2] = {APPLICATION_EXIT, (uint32_t)status};

    ask_host(EXIT_EXTENDED, block);
    for (;;) {
    }
}

int open_file(const char *name, int writing)
{
    uint32_t length = 0;

    while (name[length] != 0)
        length++;
    const uint32_t block[3] = {(uint32_t)name, writing ? WRITE_BINARY : READ_BINARY, length};
    return (int)ask_host(OPEN, block);
}

uint32_t read_file(int file, void *to, uint32_t length)
{
    const uint32_t block[3] = {(uint32_t)file, (uint32_t)to, length};
    uint32_t left = ask_host(READ, block);

    return left <= length ? length - left : 0;
}

int write_file(int file, const void *from, uint32_t length)
{
    const uint32_t block[3] = {(uint32_t)file, (uint32_t)from, length};

    return ask_host(WRITE, block) == 0;
}

int close_file(int file)
{
    const uint32_t block[1] = {(uint32_t)file};

    return ask_host(CLOSE, block) == 0;
}

int command_line(char *to, uint32_t length)
{
    uint32_t block[2] = {(uint32_t)to, length};

    return ask_host(COMMAND_LINE, block) == 0;
}
