/*
 * Preloaded into a program for x86-64 Linux, it makes calls of read and write fail. It is told how by the environment:
 *
 *   FAULT_IN=NAME               only the program of that name is touched
 *   FAULT_READ=NUMBER:ERROR     that read, counted from 1, fails with that errno; the others don't. An error of 0: nothing
 *                               is read, as at the end of a file that has shrunk
 *   FAULT_WRITE=NUMBER:ERROR    that write to standard output likewise
 *   FAULT_READ_PART=OCTETS      each read hands over at most so many octets
 *   FAULT_WRITE_PART=OCTETS     each write to standard output takes at most so many octets
 *
 * Reads are counted of standard input and of files alike: a program has one or the other.
 *
 * No header is asked for, so that the kit's own compiler builds it: tests/programs/faults has the words.
 */
extern int *__errno_location(void);
extern char *getenv(const char *name);
extern char *program_invocation_short_name;

static long system_call(long number, long file, const void *buffer, unsigned long size)
{
    register long result __asm__("rax") = number;
    __asm__ volatile("syscall" : "+r"(result) : "D"(file), "S"(buffer), "d"(size) : "rcx", "r11", "memory");
    return result;
}

/* The number that a text begins with; the text is moved past it and past one character more. */
static long number_from(const char **text)
{
    long number = 0;
    while (**text >= '0' && **text <= '9')
        number = number * 10 + *(*text)++ - '0';
    if (**text)
        ++*text;
    return number;
}

static int is_touched(void)
{
    const char *name = getenv("FAULT_IN"), *own = program_invocation_short_name;
    if (!name)
        return 0;
    while (*name && *name == *own)
        ++name, ++own;
    return *name == *own;
}

/* One call, which fails, or moves a part, where that was asked for. */
static long faulty_call(long number, int file, const void *buffer, unsigned long size, const char *fail, const char *part, long *calls)
{
    const char *fails = is_touched() ? getenv(fail) : 0, *parts = is_touched() ? getenv(part) : 0;
    ++*calls;
    if (fails && number_from(&fails) == *calls) {
        long error = number_from(&fails);
        *__errno_location() = (int)error;
        return error ? -1 : 0;
    }
    if (parts) {
        unsigned long most = (unsigned long)number_from(&parts);
        size = size < most ? size : most;
    }
    long result = system_call(number, file, buffer, size);
    if (result < 0) {
        *__errno_location() = (int)-result;
        return -1;
    }
    return result;
}

long read(int file, void *buffer, unsigned long size)
{
    static long calls;
    return faulty_call(0, file, buffer, size, "FAULT_READ", "FAULT_READ_PART", &calls);
}

long write(int file, const void *buffer, unsigned long size)
{
    static long calls, others;
    if (file == 1)
        return faulty_call(1, file, buffer, size, "FAULT_WRITE", "FAULT_WRITE_PART", &calls);
    return faulty_call(1, file, buffer, size, "", "", &others);
}
