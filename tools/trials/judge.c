/* Gives files to the library's calls, one after another, for tools/trials/damaged: what each answers, how much memory the
 * call held at most, and how long it took.
 *
 * judge SECONDS          (reads files from standard input, each as four bytes of its length, the least first, and its
 *                         bytes; writes a line for each)
 *
 * A line: the fault's number; width, height, components, depth and sign, 0 where the headers are refused; the CRC-32
 * of the samples, two bytes each, the least first; the greatest memory of the calls beside the samples' list, and the
 * microseconds of processor time. After the decode the file is cut, a window of it decoded, and what it keeps beside the
 * samples is told and given to it again: with what the headers allow, these must end too. Where calls disagree, or memory stays taken, words stand in front of the line. A call of
 * more than SECONDS ends the program: its file's line is missing. */
#include <jk.h>
#include <malloc.h>
#include <stdio.h>
#include <stdlib.h>
#include <string.h>
#include <sys/time.h>
#include <time.h>

/* glibc's own, under the names that programs don't take. */
void *__libc_malloc(size_t size);
void *__libc_realloc(void *old, size_t size);
void __libc_free(void *old);

static int counting;
static long long held, most;

static void taken(void *made)
{
    if (counting && made) held += (long long)malloc_usable_size(made);
    if (held > most) most = held;
}

static void given(void *old)
{
    if (counting && old) held -= (long long)malloc_usable_size(old);
}

void *malloc(size_t size)
{
    void *made = __libc_malloc(size);
    taken(made);
    return made;
}

void *realloc(void *old, size_t size)
{
    given(old);
    void *made = __libc_realloc(old, size);
    taken(made);
    return made;
}

void free(void *old)
{
    given(old);
    __libc_free(old);
}

static uint32_t table[256];

static uint32_t crc_of(const uint8_t *bytes, size_t count)
{
    uint32_t crc = 0xFFFFFFFFu;
    for (size_t at = 0; at < count; at++) crc = table[(crc ^ bytes[at]) & 255] ^ (crc >> 8);
    return ~crc;
}

static double now(void)
{
    struct timespec time;
    clock_gettime(CLOCK_PROCESS_CPUTIME_ID, &time);
    return (double)time.tv_sec * 1e6 + (double)time.tv_nsec / 1e3;
}

static void limit(long seconds)
{
    struct itimerval wanted = {{0, 0}, {seconds, 0}};
    setitimer(ITIMER_PROF, &wanted, NULL);
}

int main(int words, char **names)
{
    long seconds = words == 2 ? atol(names[1]) : 10;
    for (uint32_t at = 0; at < 256; at++) {
        table[at] = at;
        for (int bit = 0; bit < 8; bit++) table[at] = table[at] & 1 ? table[at] >> 1 ^ 0xEDB88320u : table[at] >> 1;
    }
    uint8_t front[4];
    while (fread(front, 1, 4, stdin) == 4) {
        size_t length = front[0] | (size_t)front[1] << 8 | (size_t)front[2] << 16 | (size_t)front[3] << 24;
        /* Exactly as long as the file, so that memcheck sees a read behind it. */
        uint8_t *file = __libc_malloc(length ? length : 1);
        if (!file || fread(file, 1, length, stdin) != length) return 2;
        jk_frame frame;
        memset(&frame, 0, sizeof frame);
        held = most = 0, counting = 1;
        limit(seconds);
        double began = now();
        uint32_t fault = jk_info(file, length, 0, &frame);
        counting = 0;
        size_t count = fault ? 0 : (size_t)frame.width * frame.height * frame.components;
        uint16_t *samples = __libc_malloc(2 * count + 2);
        if (!samples) return 3;
        counting = 1;
        uint32_t answer = jk_decode_u16(file, length, 0, samples, count);
        counting = 0;
        uint32_t crc = answer ? 0 : crc_of((const uint8_t *)samples, 2 * count);
        if (!fault) {
            uint32_t reduce = frame.levels / 2, x = frame.width / 3, y = frame.height / 3;
            uint16_t window[4 * 64];
            uint8_t *cut = __libc_malloc(length + 64);
            size_t made = 0;
            if (!cut) return 3;
            counting = 1;
            uint32_t cuts = jk_cut(file, length, 0, x, y, 5, 5, cut, length + 64, &made);
            jk_decode_window_u16(file, length, reduce, x >> reduce, y >> reduce, 1, 1, window, frame.components);
            uint8_t *kept = __libc_malloc(length + 1), *dressed = __libc_malloc(2 * length + 1);
            if (!kept || !dressed) return 3;
            size_t told = 0;
            uint32_t tells = jk_extras(file, length, kept, length, &told);
            uint32_t gives = tells ? 0 : jk_with_extras(file, length, kept, told, dressed, length + told, &made);
            counting = 0;
            /* What is told fits, and is refused alone where a profile or a colour space may not be written, or the file is
             * bare. */
            if (tells == JK_SHORT || (gives && gives != JK_BAD_PARAMETERS && gives != JK_LIMIT))
                printf("what is kept is told with %u and given with %u: ", tells, gives);
            __libc_free(kept), __libc_free(dressed);
            /* What decodes can be cut, and only a block's fault decodes to a fault where it can be cut: that of its
             * segmentation symbols is BadValue. */
            int is_blocks = answer == JK_TOO_MANY_PASSES || answer == JK_CODE_OUT_OF_INTERVAL || answer == JK_BAD_VALUE;
            if (cuts != answer && !(cuts == JK_DONE && (is_blocks || answer == JK_MISFIT)))
                printf("the cut answers %u and decoding %u: ", cuts, answer);
            __libc_free(cut);
        }
        double ended = now();
        limit(0);
        if (fault && answer != fault) printf("info answers %u and decoding %u: ", fault, answer);
        if (held) printf("%lld bytes are kept: ", held);
        printf("%u %u %u %u %u %u %08x %lld %.0f\n", answer, frame.width, frame.height, frame.components, frame.depth,
               frame.is_signed, crc, most, ended - began);
        fflush(stdout);
        __libc_free(samples);
        __libc_free(file);
    }
    return 0;
}
