/* dress IN.jp2 OUT.jp2 SAMPLES [PROFILE.icc]: a JP2 file with so many samples by the inch, 1 to 1310, and a profile; what the
 * new one keeps is listed, a box a line. */
#include <jk.h>
#include <stdio.h>
#include <stdlib.h>
#include <string.h>

static void stop(const char *name) { fprintf(stderr, "dress: %s\n", name); exit(1); }
static void check(uint32_t fault) { if (fault != JK_DONE) stop(jk_fault_name(fault)); }
static void *room_for(size_t bytes) { void *room = malloc(bytes + !bytes); if (!room) stop("no memory"); return room; }

static uint8_t *read_file(const char *name, size_t *length)
{
    FILE *in = fopen(name, "rb");
    if (!in || fseek(in, 0, SEEK_END)) stop(name);
    *length = (size_t)ftell(in);
    uint8_t *bytes = (uint8_t *)room_for(*length);
    rewind(in);
    if (fread(bytes, 1, *length, in) != *length) stop(name);
    fclose(in);
    return bytes;
}

/* Numbers are written with the highest byte first. */
static uint8_t *put(uint8_t *at, uint32_t number, int bytes)
{
    while (bytes--) *at++ = (uint8_t)(number >> 8 * bytes);
    return at;
}

static uint8_t *put_head(uint8_t *at, uint32_t length, const char *kind)
{
    at = put(at, length, 4);
    memcpy(at, kind, 4);
    return at + 4;
}

int main(int count, char **words)
{
    if (count != 4 && count != 5) stop("usage: dress IN OUT SAMPLES [PROFILE]");
    size_t length, size = 0, made = 0;
    uint8_t *file = read_file(words[1], &length);
    uint8_t *profile = count == 5 ? read_file(words[4], &size) : NULL;
    long inch = atol(words[3]);
    if (inch < 1 || inch > 1310) stop("SAMPLES is 1 to 1310");

    /* A capture resolution: 50 * n / 127 * 10^2 samples by the metre are n by the inch, down and across. */
    uint8_t *boxes = (uint8_t *)room_for(size + 64), *at = put_head(put_head(boxes, 26, "res "), 18, "resc");
    for (int i = 0; i < 2; i++) at = put(put(at, (uint32_t)(50 * inch), 2), 127, 2);
    at = put(at, 0x0202, 2);
    if (profile) {
        /* A profile stands behind METH 2, PREC and APPROX. */
        at = put(put_head(at, (uint32_t)size + 11, "colr"), 0x020000, 3);
        memcpy(at, profile, size);
        at += size;
    }
    size_t given = (size_t)(at - boxes), room = length + given;
    uint8_t *dressed = (uint8_t *)room_for(room);
    check(jk_with_extras(file, length, boxes, given, dressed, room, &made));
    FILE *out = fopen(words[2], "wb");
    if (!out || fwrite(dressed, 1, made, out) != made || fclose(out)) stop(words[2]);

    uint8_t *told = (uint8_t *)room_for(made);
    size_t all = 0;
    check(jk_extras(dressed, made, told, made, &all));
    for (size_t box = 0; box < all;) {
        size_t next = (size_t)told[box] << 24 | (size_t)told[box + 1] << 16 | (size_t)told[box + 2] << 8 | told[box + 3];
        if (!next) next = all - box;
        if (next == 1) stop("a box of more than 4 GiB");
        printf("%.4s %zu\n", (const char *)told + box + 4, next);
        box += next;
    }
    free(file), free(profile), free(boxes), free(dressed), free(told);
    return 0;
}
