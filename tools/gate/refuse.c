/* Refuses one growth of memory of a program, or one start of a thread, for tools/gate/starve. It is loaded in front of the
 * system's library (LD_PRELOAD), and looks at the calls of the program itself, not at those that libraries make.
 *
 * REFUSE_AT      the number of the growth or start that is refused, from 1 on; none: nothing is
 * REFUSE_ON      1: all behind it are refused too
 * REFUSE_COUNT   a file that is told, when the program ends, how many there were; and what was refused: `growth`,
 *                `shrink`, where a list that has the room asks for no more of it, `thread` or `none`, as soon as something
 *                is */
#define _GNU_SOURCE
#include <errno.h>
#include <link.h>
#include <malloc.h>
#include <pthread.h>
#include <dlfcn.h>
#include <fcntl.h>
#include <stdatomic.h>
#include <stdio.h>
#include <stdlib.h>
#include <string.h>
#include <sys/syscall.h>
#include <unistd.h>

/* glibc's own, under the names that programs don't take. */
void *__libc_malloc(size_t size);
void *__libc_realloc(void *old, size_t size);

static uintptr_t first, end;
static atomic_long seen;
static long refused = -1;
static int on;
static char told[4096];
static const char *_Atomic what = "none";

static int look(struct dl_phdr_info *info, size_t size, void *unused)
{
    (void)size, (void)unused;
    /* The program itself comes first. */
    for (int at = 0; at < info->dlpi_phnum; at++) {
        const ElfW(Phdr) *part = &info->dlpi_phdr[at];
        if (part->p_type != PT_LOAD || !(part->p_flags & PF_X)) continue;
        first = info->dlpi_addr + part->p_vaddr;
        end = first + part->p_memsz;
    }
    return 1;
}

__attribute__((constructor)) static void begin(void)
{
    const char *word = getenv("REFUSE_AT");
    if (word) refused = atol(word);
    word = getenv("REFUSE_ON");
    on = word && *word == '1';
    word = getenv("REFUSE_COUNT");
    if (word) strncpy(told, word, sizeof told - 1);
    dl_iterate_phdr(look, NULL);
}

__attribute__((destructor)) static void tell(void)
{
    if (!*told) return;
    char line[32];
    int length = snprintf(line, sizeof line, "%ld %s\n", atomic_load(&seen), what);
    int file = open(told, O_WRONLY | O_CREAT | O_TRUNC, 0600);
    if (file < 0 || write(file, line, (size_t)length) != length) abort();
    close(file);
}

/* A program may end without its destructors. */
void _exit(int status)
{
    tell();
    for (;;) syscall(SYS_exit_group, status);
}

static int is_refused(void *caller, const char *kind)
{
    uintptr_t place = (uintptr_t)caller;
    if (place < first || end <= place) return 0;
    long number = atomic_fetch_add(&seen, 1) + 1;
    if (refused <= 0 || number < refused || (number > refused && !on)) return 0;
    if (number == refused) {
        /* At once, since the program may be killed. */
        what = kind;
        tell();
    }
    return 1;
}

void *malloc(size_t size)
{
    if (is_refused(__builtin_return_address(0), "growth")) {
        errno = ENOMEM;
        return NULL;
    }
    return __libc_malloc(size);
}

void *realloc(void *old, size_t size)
{
    const char *kind = old && size <= malloc_usable_size(old) ? "shrink" : "growth";
    if (is_refused(__builtin_return_address(0), kind)) {
        errno = ENOMEM;
        return NULL;
    }
    return __libc_realloc(old, size);
}

int pthread_create(pthread_t *thread, const pthread_attr_t *attributes, void *(*run)(void *), void *given)
{
    static int (*next)(pthread_t *, const pthread_attr_t *, void *(*)(void *), void *);
    if (!next) *(void **)&next = dlsym(RTLD_NEXT, "pthread_create");
    if (is_refused(__builtin_return_address(0), "thread")) return EAGAIN;
    return next(thread, attributes, run, given);
}
