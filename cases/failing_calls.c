/* A library to be loaded before the C library (LD_PRELOAD), which makes a call of a chosen kind fail.
 *
 * The variable FAILING of the environment says how, as `KIND AT ON HOW TELL`: KIND is `a` for allocations, `o` for openings,
 * `r` for reads, `w` for writes and `n` for none, and with `R` and `W` the calls before AT take one byte alone; AT is the number of the first call of that kind that fails, counted from 1;
 * ON is 1 where all calls after it fail too, and 0 where it fails alone; HOW is the number of the error, or 0 for a read or a
 * write that takes one byte alone; TELL is the number of a file to which one byte is written when the first call fails.
 *
 * It includes no header and is linked with no library, so that a compiler alone can build it. */

typedef unsigned long size;

extern void *__libc_malloc(size);
extern void *__libc_calloc(size, size);
extern void *__libc_realloc(void *, size);
extern void *__libc_memalign(size, size);
extern int *__errno_location(void);

enum { SYS_READ = 0, SYS_WRITE = 1, SYS_MMAP = 9, SYS_OPENAT = 257, AT_FDCWD = -100, OPEN_CREATES = 0100, NO_MEMORY = 12 };

static char kind = 'n';
static long at, on, how, tell, calls, failures, in_bytes;

static long system_call(long number, long a, long b, long c, long d, long e, long f)
{
    register long r10 __asm__("r10") = d;
    register long r8 __asm__("r8") = e;
    register long r9 __asm__("r9") = f;
    long given;
    __asm__ volatile("syscall"
                     : "=a"(given)
                     : "a"(number), "D"(a), "S"(b), "d"(c), "r"(r10), "r"(r8), "r"(r9)
                     : "rcx", "r11", "memory");
    return given;
}

/* What a call of the system gives, with the error where the C library keeps it. */
static long result(long given)
{
    if (given >= 0 || given < -4095)
        return given;
    *__errno_location() = (int)-given;
    return -1;
}

/* Counts a call, and says whether it fails. */
static int fails(char of)
{
    if (of != kind)
        return 0;
    calls++;
    if (calls < at || (calls > at && !on))
        return 0;
    if (failures++ == 0)
        system_call(SYS_WRITE, tell, (long)"!", 1, 0, 0, 0);
    if (how)
        *__errno_location() = (int)how;
    return 1;
}

static const char *number(const char *text, long *value)
{
    while (*text == ' ')
        text++;
    for (*value = 0; *text >= '0' && *text <= '9'; text++)
        *value = *value * 10 + (*text - '0');
    return text;
}

__attribute__((constructor)) static void begin(int count, char **words, char **variables)
{
    static const char name[] = "FAILING=";
    (void)count;
    (void)words;
    for (; *variables; variables++) {
        const char *text = *variables;
        int i = 0;
        while (name[i] && text[i] == name[i])
            i++;
        if (name[i])
            continue;
        number(number(number(number(text + i + 1, &at), &on), &how), &tell);
        kind = text[i];
        in_bytes = kind == 'R' || kind == 'W';
        if (in_bytes)
            kind += 'a' - 'A';
    }
}

void *malloc(size bytes)
{
    return fails('a') ? 0 : __libc_malloc(bytes);
}

void *calloc(size items, size bytes)
{
    return fails('a') ? 0 : __libc_calloc(items, bytes);
}

void *realloc(void *block, size bytes)
{
    return fails('a') ? 0 : __libc_realloc(block, bytes);
}

void *aligned_alloc(size alignment, size bytes)
{
    return fails('a') ? 0 : __libc_memalign(alignment, bytes);
}

int posix_memalign(void **block, size alignment, size bytes)
{
    void *taken = fails('a') ? 0 : __libc_memalign(alignment, bytes);
    if (!taken)
        return NO_MEMORY;
    *block = taken;
    return 0;
}

void *mmap(void *place, size bytes, int protection, int flags, int file, long offset)
{
    if (fails('a'))
        return (void *)-1;
    return (void *)result(system_call(SYS_MMAP, (long)place, (long)bytes, protection, flags, file, offset));
}

static int opened(const char *path, int flags, int mode)
{
    if (fails('o'))
        return -1;
    return (int)result(system_call(SYS_OPENAT, AT_FDCWD, (long)path, flags, flags & OPEN_CREATES ? mode : 0, 0, 0));
}

int open(const char *path, int flags, int mode)
{
    return opened(path, flags, mode);
}

int open64(const char *path, int flags, int mode)
{
    return opened(path, flags, mode);
}

/* A read or a write of the system, which fails or takes one byte alone where it should. */
static long moved(char of, long number, int file, const void *bytes, size count)
{
    int failed = fails(of);
    if (failed && how)
        return -1;
    if (count > 1 && (failed || (of == kind && in_bytes && calls < at)))
        count = 1;
    return result(system_call(number, file, (long)bytes, (long)count, 0, 0, 0));
}

long read(int file, void *bytes, size count)
{
    return moved('r', SYS_READ, file, bytes, count);
}

long write(int file, const void *bytes, size count)
{
    return moved('w', SYS_WRITE, file, bytes, count);
}

long __write(int file, const void *bytes, size count)
{
    return moved('w', SYS_WRITE, file, bytes, count);
}
