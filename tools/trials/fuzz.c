/* Gives a file that AFL++ makes to the library's calls, for tools/trials/fuzz: info, decode, cut and decode of a window. It
 * aborts where two of them disagree, where memory stays taken, or where a call holds more than 64 MB beside what the file
 * shows. With --fault it answers a file's fault and ends, so that inputs can be counted by their answers.
 *
 * fuzz [--fault FILE ..] */
#include <jk.h>
#include <malloc.h>
#include <stdio.h>
#include <stdlib.h>
#include <string.h>
#include <unistd.h>

/* glibc's own, under the names that programs don't take. */
void *__libc_malloc(size_t size);
void *__libc_realloc(void *old, size_t size);
void __libc_free(void *old);

static int counting;
static long long held, most;

static void *taken(void *made)
{
    if (counting && made) held += (long long)malloc_usable_size(made);
    if (held > most) most = held;
    return made;
}

void *malloc(size_t size) { return taken(__libc_malloc(size)); }

void *realloc(void *old, size_t size)
{
    if (counting && old) held -= (long long)malloc_usable_size(old);
    return taken(__libc_realloc(old, size));
}

void free(void *old)
{
    if (counting && old) held -= (long long)malloc_usable_size(old);
    __libc_free(old);
}

/* Images of more samples are cut, and not decoded: they would only take time. */
#define MOST_SAMPLES (1u << 18)

static void must(int is_so)
{
    if (!is_so) abort();
}

static uint16_t samples[MOST_SAMPLES], part[64 * 64 * 4];

static uint32_t give(const uint8_t *file, size_t length)
{
    jk_frame frame;
    held = most = 0, counting = 1;
    uint32_t fault = jk_info(file, length, 0, &frame);
    if (fault) {
        uint32_t answer = jk_decode_u16(file, length, 0, samples, 0);
        counting = 0;
        must(answer == fault && held == 0 && most < 64 << 20);
        return fault;
    }
    uint64_t count = (uint64_t)frame.width * frame.height * frame.components;
    uint32_t x = frame.width / 3, y = frame.height / 3;
    uint32_t w = frame.width - x < 23 ? frame.width - x : 23, h = frame.height - y < 17 ? frame.height - y : 17;
    counting = 0;
    uint8_t *cut = __libc_malloc(length + 64);
    size_t made = 0;
    counting = 1;
    uint32_t cuts = jk_cut(file, length, 0, x, y, w, h, cut, length + 64, &made);
    uint32_t parts = jk_decode_window_u16(file, length, 0, x, y, w, h, part, (size_t)w * h * frame.components);
    uint32_t answer = cuts;
    if (count <= MOST_SAMPLES) {
        answer = jk_decode_u16(file, length, 0, samples, count);
        int is_blocks = answer == JK_TOO_MANY_PASSES || answer == JK_CODE_OUT_OF_INTERVAL || answer == JK_BAD_VALUE;
        must(cuts == answer || (cuts == JK_DONE && (is_blocks || answer == JK_MISFIT)));
        if (answer == JK_DONE) {
            must(parts == JK_DONE);
            for (uint32_t row = 0; row < h; row++)
                for (uint32_t at = 0; at < w * frame.components; at++)
                    must(part[(size_t)row * w * frame.components + at] ==
                         samples[((size_t)(y + row) * frame.width + x) * frame.components + at]);
            /* The window of the cut file is the same. */
            must(jk_decode_window_u16(cut, made, 0, x, y, w, h, samples, (size_t)w * h * frame.components) == JK_DONE);
            must(!memcmp(samples, part, (size_t)w * h * frame.components * 2));
        }
        if (frame.levels) jk_decode_u16(file, length, 1, samples, 0);
    }
    counting = 0;
    __libc_free(cut);
    must(held == 0 && most < (64 << 20) + 16 * (long long)count);
    return answer;
}

#ifdef __AFL_FUZZ_TESTCASE_LEN
__AFL_FUZZ_INIT();
#endif

int main(int words, char **names)
{
    if (words > 1 && !strcmp(names[1], "--fault")) {
        static uint8_t file[1 << 20];
        for (int at = 2; at < words; at++) {
            FILE *stored = fopen(names[at], "rb");
            if (!stored) return 2;
            size_t length = fread(file, 1, sizeof file, stored);
            fclose(stored);
            uint8_t *given = __libc_malloc(length ? length : 1);
            memcpy(given, file, length);
            printf("%u %s\n", give(given, length), names[at]);
            __libc_free(given);
        }
        return 0;
    }
#ifdef __AFL_FUZZ_TESTCASE_LEN
    __AFL_INIT();
    uint8_t *given = __AFL_FUZZ_TESTCASE_BUF;
    while (__AFL_LOOP(1000)) {
        size_t length = (size_t)__AFL_FUZZ_TESTCASE_LEN;
        give(given, length);
    }
#endif
    return 0;
}
