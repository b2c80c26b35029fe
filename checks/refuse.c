/* Stands in front of the C library's allocator and refuses growths of memory. They are counted from 1. REFUSE_FROM
 * is the first that is refused and REFUSE_TO the last; 0 is none. At the program's end the number of growths goes to
 * the descriptor REFUSE_TELL. */
#include <errno.h>
#include <stdio.h>
#include <stdlib.h>
#include <sys/syscall.h>
#include <unistd.h>

extern void *__libc_malloc(size_t);
extern void *__libc_calloc(size_t, size_t);
extern void *__libc_realloc(void *, size_t);
extern void *__libc_memalign(size_t, size_t);

static unsigned long count, from, to, tell;

/* Before the program begins nothing is counted. */
static int begun;

static unsigned long number_in(const char *name)
{
    const char *text = getenv(name);
    return text ? strtoul(text, NULL, 10) : 0;
}

__attribute__((constructor)) static void begin(void)
{
    from = number_in("REFUSE_FROM");
    to = number_in("REFUSE_TO");
    tell = number_in("REFUSE_TELL");
    begun = 1;
}

__attribute__((destructor)) static void end(void)
{
    begun = 0;
    dprintf((int)tell, "%lu", count);
}

/* Some programs end at once. */
void _exit(int status)
{
    end();
    syscall(SYS_exit_group, status);
    __builtin_unreachable();
}

static int is_refused(void)
{
    unsigned long number;
    if (!begun)
        return 0;
    number = __atomic_add_fetch(&count, 1, __ATOMIC_RELAXED);
    if (number < from || to < number)
        return 0;
    errno = ENOMEM;
    return 1;
}

void *malloc(size_t size)
{
    return is_refused() ? NULL : __libc_malloc(size);
}

void *calloc(size_t items, size_t size)
{
    return is_refused() ? NULL : __libc_calloc(items, size);
}

void *realloc(void *old, size_t size)
{
    return is_refused() ? NULL : __libc_realloc(old, size);
}

void *aligned_alloc(size_t align, size_t size)
{
    return is_refused() ? NULL : __libc_memalign(align, size);
}

int posix_memalign(void **to_fill, size_t align, size_t size)
{
    void *made = is_refused() ? NULL : __libc_memalign(align, size);
    if (!made)
        return ENOMEM;
    *to_fill = made;
    return 0;
}
