/* Reads and writes that fail or are short, to be preloaded to a program. The environment says which,
   of the reads of descriptor 0 and the writes to descriptor 1, counted from 1:

     READ_FAILS=N    the Nth read and all later ones fail, as of a broken device
     READ_BREAKS=N   the Nth read is interrupted by a signal before it gives anything
     READ_MOST=N     a read gives at most N bytes
     WRITE_FAILS=N   the Nth write and all later ones fail, as to a broken device
     WRITE_STOPS=N   the Nth write and all later ones take no byte
     WRITE_BREAKS=N  the Nth write is interrupted by a signal before it takes anything
     WRITE_MOST=N    a write takes at most N bytes

   It includes no header, so that a compiler without any builds it. For glibc. */

typedef __SIZE_TYPE__ size_t;

extern long __read(int descriptor, void *bytes, size_t count);
extern long __write(int descriptor, const void *bytes, size_t count);
extern int *__errno_location(void);
extern char *getenv(const char *name);

enum { INTERRUPTED = 4, INPUT_OUTPUT = 5 };

static unsigned long reads, writes;

static unsigned long number_of(const char *name)
{
    const char *digits = getenv(name);
    unsigned long number = 0;
    while (digits && *digits)
        number = 10 * number + (unsigned long)(*digits++ - '0');
    return number;
}

static int is_from(unsigned long call, const char *name)
{
    unsigned long first = number_of(name);
    return first && call >= first;
}

static size_t most(size_t count, const char *name)
{
    unsigned long limit = number_of(name);
    return limit && limit < count ? limit : count;
}

static long failed(int why)
{
    *__errno_location() = why;
    return -1;
}

long read(int descriptor, void *bytes, size_t count)
{
    if (descriptor == 0) {
        reads++;
        if (reads == number_of("READ_BREAKS"))
            return failed(INTERRUPTED);
        if (is_from(reads, "READ_FAILS"))
            return failed(INPUT_OUTPUT);
        count = most(count, "READ_MOST");
    }
    return __read(descriptor, bytes, count);
}

long write(int descriptor, const void *bytes, size_t count)
{
    if (descriptor == 1) {
        writes++;
        if (writes == number_of("WRITE_BREAKS"))
            return failed(INTERRUPTED);
        if (is_from(writes, "WRITE_FAILS"))
            return failed(INPUT_OUTPUT);
        if (is_from(writes, "WRITE_STOPS"))
            return 0;
        count = most(count, "WRITE_MOST");
    }
    return __write(descriptor, bytes, count);
}
