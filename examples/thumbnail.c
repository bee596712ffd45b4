/* thumbnail IN.jp2 OUT.jp2 SIDE: the reduction of an image whose sides are at most SIDE, as a file of its own. */
#include <jk.h>
#include <stdio.h>
#include <stdlib.h>

static void stop(const char *name) { fprintf(stderr, "thumbnail: %s\n", name); exit(1); }
static void check(uint32_t fault) { if (fault != JK_DONE) stop(jk_fault_name(fault)); }
static void *room_for(size_t bytes) { void *room = malloc(bytes + !bytes); if (!room) stop("no memory"); return room; }

int main(int count, char **words)
{
    if (count != 4) stop("usage: thumbnail IN OUT SIDE");
    FILE *in = fopen(words[1], "rb");
    if (!in || fseek(in, 0, SEEK_END)) stop(words[1]);
    size_t length = (size_t)ftell(in), made = 0;
    uint8_t *file = (uint8_t *)room_for(length);
    rewind(in);
    if (fread(file, 1, length, in) != length) stop(words[1]);
    fclose(in);

    jk_frame frame;
    uint32_t reduce = 0, side = (uint32_t)atoi(words[3]);
    check(jk_info(file, length, reduce, &frame));
    while (reduce < frame.levels && (frame.width > side || frame.height > side))
        check(jk_info(file, length, ++reduce, &frame));

    size_t samples = (size_t)frame.width * frame.height * frame.components;
    uint16_t *pixels = (uint16_t *)room_for(samples * 2);
    check(jk_decode_u16(file, length, reduce, pixels, samples));

    jk_coding coding = jk_coding_for(&frame);
    size_t room = samples * 3 + 65536;
    uint8_t *small = (uint8_t *)room_for(room);
    check(jk_encode_u16(&frame, pixels, samples, &coding, small, room, &made));

    FILE *out = fopen(words[2], "wb");
    if (!out || fwrite(small, 1, made, out) != made || fclose(out)) stop(words[2]);
    printf("%u by %u, %zu bytes\n", frame.width, frame.height, made);
    free(file), free(pixels), free(small);
    return 0;
}
