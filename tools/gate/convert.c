/* The calls of the C library over files, for tools/gate/try-c and tools/trials/library.
 *
 * convert encode IN.ppm OUT.jp2 [LEVELS LAYERS ORDER TILE_W TILE_H BLOCK_X BLOCK_Y COLOUR SOP EPH RAW STYLE [PRECINCT ..]]
 * convert decode IN.jp2 OUT.ppm [REDUCE]
 * convert window IN.jp2 OUT.ppm REDUCE X Y W H
 * convert cut IN.jp2 OUT.jp2 REDUCE X Y W H
 * convert each IN.jp2: each call once on a file that may be damaged; what they answer, in one line */
#include <jk.h>
#include <stdio.h>
#include <stdlib.h>
#include <string.h>

static void stop(const char *name)
{
    fprintf(stderr, "convert: %s\n", name);
    exit(1);
}

static void check(uint32_t fault)
{
    if (fault != JK_DONE) stop(jk_fault_name(fault));
}

static void *room_for(size_t bytes)
{
    void *room = malloc(bytes + !bytes);
    if (!room) stop("no memory");
    return room;
}

static uint8_t *read_file(const char *path, size_t *length)
{
    FILE *file = fopen(path, "rb");
    if (!file || fseek(file, 0, SEEK_END)) stop(path);
    *length = (size_t)ftell(file);
    rewind(file);
    uint8_t *bytes = (uint8_t *)room_for(*length);
    if (fread(bytes, 1, *length, file) != *length) stop(path);
    fclose(file);
    return bytes;
}

static void write_file(const char *path, const void *head, size_t some, const void *rest, size_t more)
{
    FILE *file = fopen(path, "wb");
    if (!file || fwrite(head, 1, some, file) != some || fwrite(rest, 1, more, file) != more || fclose(file)) stop(path);
}

static uint32_t number(int count, char **words, int place, uint32_t otherwise)
{
    return place < count ? (uint32_t)strtoul(words[place], NULL, 10) : otherwise;
}

static uint32_t least(uint32_t a, uint32_t b) { return a < b ? a : b; }

/* Samples of two bytes, the upper one first, and back. */
static void turn(uint8_t *bytes, uint16_t *words, size_t count, int back)
{
    for (size_t i = 0; i < count; i++) {
        if (back) bytes[2 * i] = (uint8_t)(words[i] >> 8), bytes[2 * i + 1] = (uint8_t)(words[i] & 255);
        else words[i] = (uint16_t)(bytes[2 * i] << 8 | bytes[2 * i + 1]);
    }
}

static void write_samples(const char *path, const jk_frame *frame, uint32_t width, uint32_t height, const void *samples)
{
    char head[64];
    int some = sprintf(head, "P%c\n%u %u\n%u\n", frame->components == 3 ? '6' : '5', width, height,
                       (1u << frame->depth) - 1);
    size_t count = (size_t)width * height * frame->components;
    if (frame->depth <= 8) {
        write_file(path, head, (size_t)some, samples, count);
        return;
    }
    uint8_t *bytes = (uint8_t *)room_for(2 * count);
    turn(bytes, (uint16_t *)samples, count, 1);
    write_file(path, head, (size_t)some, bytes, 2 * count);
    free(bytes);
}

static void decode(int count, char **words, int windowed)
{
    size_t length;
    uint8_t *file = read_file(words[2], &length);
    uint32_t reduce = number(count, words, 4, 0), x = number(count, words, 5, 0), y = number(count, words, 6, 0);
    uint32_t width = number(count, words, 7, 0), height = number(count, words, 8, 0);
    jk_frame frame;
    check(jk_info(file, length, reduce, &frame));
    uint32_t across = frame.width, down = frame.height;
    if (windowed) {
        across = x < frame.width ? least(width, frame.width - x) : 0;
        down = y < frame.height ? least(height, frame.height - y) : 0;
    }
    size_t samples = (size_t)across * down * frame.components;
    void *room = room_for(2 * samples);
    if (frame.depth <= 8)
        check(windowed ? jk_decode_window_u8(file, length, reduce, x, y, width, height, (uint8_t *)room, samples)
                       : jk_decode_u8(file, length, reduce, (uint8_t *)room, samples));
    else
        check(windowed ? jk_decode_window_u16(file, length, reduce, x, y, width, height, (uint16_t *)room, samples)
                       : jk_decode_u16(file, length, reduce, (uint16_t *)room, samples));
    write_samples(words[3], &frame, across, down, room);
    free(room), free(file);
}

static void encode(int count, char **words)
{
    size_t length, made = 0;
    uint8_t *file = read_file(words[2], &length);
    char kind;
    unsigned maxval;
    int at;
    jk_frame frame;
    memset(&frame, 0, sizeof frame);
    char head[64] = "";
    memcpy(head, file, length < 63 ? length : 63);
    if (sscanf(head, "P%c %u %u %u%n", &kind, &frame.width, &frame.height, &maxval, &at) != 4) stop("no PPM file");
    frame.components = kind == '6' ? 3 : 1;
    while (maxval >> frame.depth) frame.depth++;
    size_t samples = (size_t)frame.width * frame.height * frame.components, room = 16;
    jk_coding coding = jk_coding_for(&frame);
    coding.levels = number(count, words, 4, 5), coding.layers = number(count, words, 5, 1);
    coding.order = number(count, words, 6, JK_LRCP);
    coding.tile_width = number(count, words, 7, 0), coding.tile_height = number(count, words, 8, 0);
    coding.block_width = number(count, words, 9, 6), coding.block_height = number(count, words, 10, 6);
    coding.colour = number(count, words, 11, coding.colour);
    coding.sop = number(count, words, 12, 0), coding.eph = number(count, words, 13, 0);
    coding.raw = number(count, words, 14, 0), coding.style = number(count, words, 15, 0);
    for (int i = 16; i < count && coding.precinct_count < 8; i++)
        coding.precincts[coding.precinct_count++] = (uint8_t)number(count, words, i, 0);
    uint16_t *wide = (uint16_t *)room_for(2 * samples);
    if (maxval > 255) turn(file + at + 1, wide, samples, 0);
    uint8_t *out = (uint8_t *)room_for(room);
    uint32_t fault = JK_SHORT;
    while (fault == JK_SHORT) {
        fault = maxval > 255 ? jk_encode_u16(&frame, wide, samples, &coding, out, room, &made)
                             : jk_encode_u8(&frame, file + at + 1, samples, &coding, out, room, &made);
        if (fault == JK_SHORT) {
            free(out);
            room = made;
            out = (uint8_t *)room_for(room);
        }
    }
    check(fault);
    write_file(words[3], out, made, "", 0);
    free(out), free(wide), free(file);
}

static void cut(int count, char **words)
{
    size_t length, made = 0;
    uint8_t *file = read_file(words[2], &length), *out = (uint8_t *)room_for(length);
    check(jk_cut(file, length, number(count, words, 4, 0), number(count, words, 5, 0), number(count, words, 6, 0),
                 number(count, words, 7, 0), number(count, words, 8, 0), out, length, &made));
    write_file(words[3], out, made, "", 0);
    free(out), free(file);
}

/* Lists have just their length, so that a tool which watches memory sees what passes them. */
static void each(char **words)
{
    size_t length, made = 0;
    uint8_t *file = read_file(words[2], &length);
    jk_frame frame;
    memset(&frame, 0, sizeof frame);
    uint32_t told = jk_info(file, length, 0, &frame);
    size_t samples = told == JK_DONE ? (size_t)frame.width * frame.height * frame.components : 0;
    uint8_t *narrow = (uint8_t *)room_for(samples), *room = (uint8_t *)room_for(length);
    uint16_t *wide = (uint16_t *)room_for(2 * samples);
    uint32_t bytes = jk_decode_u8(file, length, 0, narrow, samples);
    uint32_t all = jk_decode_u16(file, length, 0, wide, samples);
    uint32_t across = least(frame.width, 8), down = least(frame.height, 8);
    uint32_t part = jk_decode_window_u16(file, length, 0, 0, 0, across, down, wide,
                                         (size_t)across * down * frame.components);
    uint32_t piece = jk_cut(file, length, 0, 0, 0, 8, 8, room, length, &made);
    printf("%s %s %s %s %s\n", jk_fault_name(told), jk_fault_name(bytes), jk_fault_name(all), jk_fault_name(part),
           jk_fault_name(piece));
    free(narrow), free(wide), free(room), free(file);
}

int main(int count, char **words)
{
    if (count >= 4 && !strcmp(words[1], "encode")) encode(count, words);
    else if (count >= 4 && !strcmp(words[1], "decode")) decode(count, words, 0);
    else if (count == 9 && !strcmp(words[1], "window")) decode(count, words, 1);
    else if (count == 9 && !strcmp(words[1], "cut")) cut(count, words);
    else if (count == 3 && !strcmp(words[1], "each")) each(words);
    else return 2;
    return 0;
}
