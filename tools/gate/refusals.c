/* Refuses each growth of memory of the library's calls in turn, for tools/gate/try-c: each call must answer Memory, leave
 * the caller's lists as they are, and give back what it took. Where memory was to be given back and that is refused, a
 * call may go on with what it has, and then does all that it is to do.
 *
 * refusals FILE.jp2      (an image of at most 8 bits, written by jk) */
#include <jk.h>
#include <malloc.h>
#include <stdio.h>
#include <stdlib.h>
#include <string.h>

/* glibc's own, under the names that programs don't take. */
void *__libc_malloc(size_t size);
void *__libc_realloc(void *old, size_t size);
void __libc_free(void *old);

static int counting, shrinks;
static long seen, refused = -1;
static long long taken;

void *malloc(size_t size)
{
    if (counting && seen++ == refused) return NULL;
    void *made = __libc_malloc(size);
    if (counting && made) taken += (long long)malloc_usable_size(made);
    return made;
}

void *realloc(void *old, size_t size)
{
    if (counting && seen++ == refused) {
        shrinks = old && size < malloc_usable_size(old);
        return NULL;
    }
    if (counting && old) taken -= (long long)malloc_usable_size(old);
    void *made = __libc_realloc(old, size);
    if (counting && made) taken += (long long)malloc_usable_size(made);
    return made;
}

void free(void *old)
{
    if (counting && old) taken -= (long long)malloc_usable_size(old);
    __libc_free(old);
}

static uint8_t file[1 << 20], samples[1 << 20], out[1 << 21], before[1 << 21], due[1 << 21];
static size_t length, count, made;
/* The file with a resolution, XML and a box under a UUID. */
static const uint8_t boxes[] = {0, 0, 0, 26, 'r', 'e', 's', ' ', 0, 0, 0, 18, 'r', 'e', 's', 'c', 0, 1, 0, 1, 0, 1, 0, 1, 2,
    2, 0, 0, 0, 12, 'x', 'm', 'l', ' ', '<', 'a', '/', '>', 0, 0, 0, 25, 'u', 'u', 'i', 'd', 1, 2, 3, 4, 5, 6, 7, 8, 9,
    10, 11, 12, 13, 14, 15, 16, 'a'};
static uint8_t dressed[(1 << 20) + sizeof boxes];
static size_t dressed_length;
static jk_frame frame;
/* An image that is encoded row by row, in four tiles. */
enum { SIDE = 512 };
static uint8_t large[SIDE * SIDE];

static uint32_t encode_large(void)
{
    jk_frame of = {0};
    of.width = of.height = SIDE;
    of.components = 1;
    of.depth = 8;
    jk_coding coding = jk_coding_for(&of);
    coding.tile_width = coding.tile_height = SIDE / 2;
    return jk_encode_u8(&of, large, sizeof large, &coding, out, sizeof out, &made);
}

static uint32_t call(int which)
{
    jk_coding coding = jk_coding_for(&frame);
    jk_frame told;
    switch (which) {
    case 0: return jk_info(file, length, 0, &told);
    case 1: return jk_decode_u8(file, length, 0, out, count);
    case 2: return jk_decode_window_u8(file, length, 0, 0, 0, frame.width, frame.height, out, count);
    case 3: return jk_encode_u8(&frame, samples, count, &coding, out, sizeof out, &made);
    case 4: return jk_extras(dressed, dressed_length, out, sizeof out, &made);
    case 5: return jk_with_extras(file, length, boxes, sizeof boxes, out, sizeof out, &made);
    case 6: return encode_large();
    default: return jk_cut(file, length, 0, 0, 0, 8, 8, out, sizeof out, &made);
    }
}

int main(int words, char **names)
{
    FILE *stored = words == 2 ? fopen(names[1], "rb") : NULL;
    if (!stored) return 2;
    length = fread(file, 1, sizeof file, stored);
    fclose(stored);
    if (jk_info(file, length, 0, &frame)) return 1;
    count = (size_t)frame.width * frame.height * frame.components;
    if (jk_decode_u8(file, length, 0, samples, count)) return 1;
    if (jk_with_extras(file, length, boxes, sizeof boxes, dressed, sizeof dressed, &dressed_length)) return 1;
    for (size_t at = 0; at < sizeof large; at++) large[at] = (uint8_t)(at / SIDE / 8 + at % SIDE / 16);
    for (int which = 0; which < 8; which++) {
        memset(out, 170, sizeof out);
        refused = -1, seen = 0, taken = 0, counting = 1;
        uint32_t answer = call(which);
        counting = 0;
        long all = seen;
        if (answer != JK_DONE || taken) return 1;
        memcpy(due, out, sizeof due);
        memset(before, 170, sizeof before);
        for (refused = 0; refused < all; refused++) {
            memset(out, 170, sizeof out);
            seen = 0, taken = 0, shrinks = 0, counting = 1;
            answer = call(which);
            counting = 0;
            if (shrinks && answer == JK_DONE && !taken && !memcmp(out, due, sizeof out)) continue;
            if (answer != JK_MEMORY || taken || memcmp(out, before, sizeof out)) {
                printf("refusals: call %d, growth %ld: %s, %lld bytes kept\n", which, refused, jk_fault_name(answer),
                       taken);
                return 1;
            }
        }
        printf("%ld ", all);
    }
    puts("growths refused in turn");
    return 0;
}
