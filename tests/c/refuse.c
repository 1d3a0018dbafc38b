/* An allocator that refuses growths, to be preloaded to a program. The environment says which:

     REFUSE_AT=N         the Nth growth alone
     REFUSE_FROM=N       the Nth growth and all later ones
     REFUSE_AFTER=TEXT   all growths after the program wrote TEXT to descriptor 1
     REFUSE_TELL=FILE    a file of 32 bytes, four counts: growths asked for, growths refused, growths
                         asked for after TEXT, and whether TEXT was written

   A growth is a request for memory whose call stands in the program's own image. What the loader, the
   C library and the start of a thread take for themselves is neither counted nor refused: it isn't the
   program's request, and a thread's stack isn't had by these calls at all.

   It includes no header, so that a compiler without any builds it. For x86-64 and glibc. */

typedef __SIZE_TYPE__ size_t;

extern void *__libc_malloc(size_t size);
extern void *__libc_calloc(size_t count, size_t size);
extern void *__libc_realloc(void *old, size_t size);
extern void *__libc_memalign(size_t alignment, size_t size);
extern long __write(int descriptor, const void *bytes, size_t count);
extern int *__errno_location(void);
extern char *getenv(const char *name);
extern unsigned long getauxval(unsigned long kind);
extern int open(const char *path, int flags, ...);
extern void *mmap(void *start, size_t size, int protection, int flags, int file, long offset);

enum { OUT_OF_MEMORY = 12, READ_WRITE = 2, READABLE_WRITABLE = 3, SHARED = 1 };
enum { PROGRAM_HEADERS = 3, HEADER_COUNT = 5, TO_BE_LOADED = 1, HEADERS_THEMSELVES = 6 };

struct counts {
    unsigned long asked, refused, asked_after, is_written;
};

struct header {
    unsigned int kind, flags;
    unsigned long offset, address, physical, size_in_file, size, alignment;
};

static struct counts untold;
static struct counts *counts = &untold;
static unsigned long refused_at, refused_from;
static const char *mark;
static unsigned long image_start, image_end;

static unsigned long number_of(const char *name)
{
    const char *digits = getenv(name);
    unsigned long number = 0;
    while (digits && *digits)
        number = 10 * number + (unsigned long)(*digits++ - '0');
    return number;
}

/* Finds out where the program's own image lies, by the headers that the kernel tells of. */
static void find_image(void)
{
    const struct header *headers = (const struct header *)getauxval(PROGRAM_HEADERS);
    unsigned long count = getauxval(HEADER_COUNT), moved = 0, i;
    for (i = 0; i < count; i++)
        if (headers[i].kind == HEADERS_THEMSELVES)
            moved = (unsigned long)headers - headers[i].address;
    image_start = ~0UL;
    for (i = 0; i < count; i++) {
        unsigned long start = moved + headers[i].address;
        if (headers[i].kind != TO_BE_LOADED)
            continue;
        if (start < image_start)
            image_start = start;
        if (start + headers[i].size > image_end)
            image_end = start + headers[i].size;
    }
}

__attribute__((constructor)) static void start(void)
{
    const char *path = getenv("REFUSE_TELL");
    int file = path ? open(path, READ_WRITE) : -1;
    void *told = (void *)-1;
    if (file >= 0)
        told = mmap(0, sizeof *counts, READABLE_WRITABLE, SHARED, file, 0);
    if (told != (void *)-1)
        counts = told;
    refused_at = number_of("REFUSE_AT");
    refused_from = number_of("REFUSE_FROM");
    mark = getenv("REFUSE_AFTER");
    find_image();
}

/* Counts a request and tells whether it is refused. */
static int is_refused(void *caller)
{
    unsigned long place = (unsigned long)caller, number;
    int refuses;
    if (place < image_start || place >= image_end)
        return 0;
    number = __atomic_add_fetch(&counts->asked, 1, __ATOMIC_SEQ_CST);
    refuses = number == refused_at || (refused_from && number >= refused_from);
    if (__atomic_load_n(&counts->is_written, __ATOMIC_SEQ_CST)) {
        __atomic_add_fetch(&counts->asked_after, 1, __ATOMIC_SEQ_CST);
        refuses = 1;
    }
    if (refuses) {
        __atomic_add_fetch(&counts->refused, 1, __ATOMIC_SEQ_CST);
        *__errno_location() = OUT_OF_MEMORY;
    }
    return refuses;
}

void *malloc(size_t size)
{
    return is_refused(__builtin_return_address(0)) ? 0 : __libc_malloc(size);
}

void *calloc(size_t count, size_t size)
{
    return is_refused(__builtin_return_address(0)) ? 0 : __libc_calloc(count, size);
}

void *realloc(void *old, size_t size)
{
    if (size && is_refused(__builtin_return_address(0)))
        return 0;
    return __libc_realloc(old, size);
}

void *memalign(size_t alignment, size_t size)
{
    return is_refused(__builtin_return_address(0)) ? 0 : __libc_memalign(alignment, size);
}

void *aligned_alloc(size_t alignment, size_t size)
{
    return is_refused(__builtin_return_address(0)) ? 0 : __libc_memalign(alignment, size);
}

int posix_memalign(void **made, size_t alignment, size_t size)
{
    void *block = is_refused(__builtin_return_address(0)) ? 0 : __libc_memalign(alignment, size);
    if (!block)
        return OUT_OF_MEMORY;
    *made = block;
    return 0;
}

/* Follows what is written to descriptor 1, in however many pieces, until it has had the whole text. */
static void follow(const char *bytes, long count)
{
    static size_t matched;
    long at;
    for (at = 0; at < count && mark[matched]; at++)
        matched = bytes[at] == mark[matched] ? matched + 1 : bytes[at] == mark[0];
    if (!mark[matched])
        __atomic_store_n(&counts->is_written, 1, __ATOMIC_SEQ_CST);
}

long write(int descriptor, const void *bytes, size_t count)
{
    long written = __write(descriptor, bytes, count);
    if (mark && descriptor == 1)
        follow(bytes, written);
    return written;
}
