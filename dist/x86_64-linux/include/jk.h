/* jk: lossless JPEG 2000 Part 1 (ITU-T T.800) on its reversible path, for C and C++.
 *
 * Every call works over the caller's memory and answers a number: JK_DONE, or why it was refused. It keeps nothing, so
 * calls may run in several threads at once, as long as none writes to what another has. docs/library.md has examples,
 * and what of this is proved.
 *
 * No pointer may be null, not even that of an empty list, and what a call writes may not overlap what it reads.
 * Samples lie row by row and pixel by pixel, the components of a pixel side by side. */
#ifndef JK_H
#define JK_H

#include <stddef.h>
#include <stdint.h>

#ifdef __cplusplus
extern "C" {
#endif

/* The version of this header: 10,000 times the major number, 100 times the minor one, and the patch. jk_version()
 * answers that of the library. */
#define JK_VERSION 302u

/* What calls answer. But for the last two these are the faults of `jk faults`. */
enum {
    JK_DONE = 0,
    JK_MEMORY = 1,
    JK_TRUNCATED = 2,
    JK_BAD_MARKER = 3,
    JK_BAD_LENGTH = 4,
    JK_BAD_VALUE = 5,
    JK_UNSUPPORTED = 6,
    JK_LIMIT = 7,
    JK_PACKET_HEADER = 8,
    JK_TOO_MANY_PASSES = 9,
    JK_CODE_OUT_OF_INTERVAL = 10,
    JK_MISSING_PACKETS = 11,
    JK_SURPLUS_BYTES = 12,
    JK_BAD_BOX = 13,
    JK_BAD_PARAMETERS = 15,
    JK_BAD_WINDOW = 16,
    JK_CHANGED = 21,
    JK_SHORT = 64, /* the room is too small; *length tells how many bytes are needed */
    JK_MISFIT = 65 /* the list has another length than the samples, or they don't fit its type */
};

/* Orders of packets. */
enum { JK_LRCP = 0, JK_RLCP = 1, JK_RPCL = 2, JK_PCRL = 3, JK_CPRL = 4 };

/* An image, at a reduction. */
typedef struct jk_frame {
    uint32_t x0, y0; /* the place of the upper left sample on the reference grid */
    uint32_t width, height;
    uint32_t components; /* 1 to 4 */
    uint32_t depth;      /* bits of a sample, 1 to 16, the sign counted */
    uint32_t is_signed;  /* 1 where samples may be negative, else 0 */
    uint32_t levels;     /* so often the image can be halved; jk_info tells it, and jk_encode doesn't read it */
    uint32_t reserved[4]; /* zeros */
} jk_frame;

/* Styles of code-blocks, which may be added. With JK_RESET contexts begin anew with each coding pass; with JK_CAUSAL no
 * stripe depends on the stripe below it; with JK_SEGMENTS each cleanup pass ends with a symbol, by which damage is
 * seen. */
enum { JK_RESET = 2, JK_CAUSAL = 8, JK_SEGMENTS = 32 };

/* How an image is encoded: begin with jk_coding_for. */
typedef struct jk_coding {
    uint32_t levels;                    /* decomposition levels, 0 to 5 */
    uint32_t layers;                    /* 1 to 32 */
    uint32_t order;                     /* JK_LRCP to JK_CPRL */
    uint32_t tile_width, tile_height;   /* 0 and 0: one tile */
    uint32_t block_width, block_height; /* exponents of a code-block's sides, 2 to 10, together at most 12 */
    uint32_t precinct_count;            /* 0, or one for each of levels + 1 resolutions */
    uint8_t precincts[8];               /* exponents PPx + 16 * PPy of precinct sizes, the lowest resolution first */
    uint32_t colour;                    /* 1: components 0 to 2 go through the colour transform */
    uint32_t sop, eph;                  /* 1: SOP before each packet, EPH behind each packet header */
    uint32_t raw;                       /* 1: a bare codestream; 0: a JP2 file, for 1 or 3 unsigned components */
    uint32_t style;                     /* 0, or JK_RESET, JK_CAUSAL and JK_SEGMENTS added */
    uint32_t reserved[3];               /* zeros */
} jk_coding;

/* 5 levels, 1 layer, LRCP, one tile, code-blocks of 64 by 64, no precincts; the colour transform where there are three
 * components; JP2 where it holds the image, which has 1 or 3 components of unsigned samples then, else a bare codestream;
 * no style. */
static inline jk_coding jk_coding_for(const jk_frame *frame)
{
    jk_coding coding = {5, 1, JK_LRCP, 0, 0, 6, 6, 0, {0, 0, 0, 0, 0, 0, 0, 0}, 0, 0, 0, 0, 0, {0, 0, 0}};
    coding.colour = frame->components == 3;
    coding.raw = (frame->components != 1 && frame->components != 3) || frame->is_signed;
    return coding;
}

/* The version of the library. */
uint32_t jk_version(void);

/* What boxes and headers say of the image at a reduction: 0 is the image itself, 1 the half of it, and so on. A list
 * for its samples has width * height * components elements. JK_BAD_WINDOW: it can't be halved so often. */
uint32_t jk_info(const uint8_t *file, size_t file_length, uint32_t reduce, jk_frame *frame);

/* The samples of the image at a reduction. u8 and u16 take unsigned samples alone, i8 and i16 signed ones, u8 and i8 those
 * of at most 8 bits: else JK_MISFIT, as where count isn't width * height * components. */
uint32_t jk_decode_u8(const uint8_t *file, size_t file_length, uint32_t reduce, uint8_t *samples, size_t count);
uint32_t jk_decode_u16(const uint8_t *file, size_t file_length, uint32_t reduce, uint16_t *samples, size_t count);
uint32_t jk_decode_i8(const uint8_t *file, size_t file_length, uint32_t reduce, int8_t *samples, size_t count);
uint32_t jk_decode_i16(const uint8_t *file, size_t file_length, uint32_t reduce, int16_t *samples, size_t count);

/* The samples of a window of the image at a reduction, without decoding the rest. The window is counted from the upper
 * left sample of the reduced image and cut with it: count is the cut window's. JK_BAD_WINDOW: it has no sample. */
uint32_t jk_decode_window_u8(const uint8_t *file, size_t file_length, uint32_t reduce, uint32_t x, uint32_t y,
                             uint32_t width, uint32_t height, uint8_t *samples, size_t count);
uint32_t jk_decode_window_u16(const uint8_t *file, size_t file_length, uint32_t reduce, uint32_t x, uint32_t y,
                              uint32_t width, uint32_t height, uint16_t *samples, size_t count);
uint32_t jk_decode_window_i8(const uint8_t *file, size_t file_length, uint32_t reduce, uint32_t x, uint32_t y,
                             uint32_t width, uint32_t height, int8_t *samples, size_t count);
uint32_t jk_decode_window_i16(const uint8_t *file, size_t file_length, uint32_t reduce, uint32_t x, uint32_t y,
                              uint32_t width, uint32_t height, int16_t *samples, size_t count);

/* The file of an image. With JK_DONE its bytes stand at the beginning of the room, and *length tells how many they are.
 * With JK_SHORT *length tells how much room is needed. Room of 1.25 times the samples' bytes and 64 KiB is enough but
 * for small tiles, code-blocks and precincts. u8 and u16 ask for a frame with is_signed 0, i8 and i16 for one with 1, and
 * for a bare codestream: else JK_BAD_PARAMETERS. */
uint32_t jk_encode_u8(const jk_frame *frame, const uint8_t *samples, size_t count, const jk_coding *coding,
                      uint8_t *file, size_t room, size_t *length);
uint32_t jk_encode_u16(const jk_frame *frame, const uint16_t *samples, size_t count, const jk_coding *coding,
                       uint8_t *file, size_t room, size_t *length);
uint32_t jk_encode_i8(const jk_frame *frame, const int8_t *samples, size_t count, const jk_coding *coding,
                      uint8_t *file, size_t room, size_t *length);
uint32_t jk_encode_i16(const jk_frame *frame, const int16_t *samples, size_t count, const jk_coding *coding,
                       uint8_t *file, size_t room, size_t *length);

/* The file of a window, counted as above: the stored file, in which the packets that the window doesn't need are empty.
 * It was never seen longer than the stored file. */
uint32_t jk_cut(const uint8_t *file, size_t file_length, uint32_t reduce, uint32_t x, uint32_t y, uint32_t width,
                uint32_t height, uint8_t *cut, size_t room, size_t *length);

/* What a file keeps beside the samples, as boxes one after another (T.800 Annex I): `colr`, the colour space or profile that
 * counts; `res `, the resolutions; and all boxes `xml ` and `uuid`, in their order. A bare codestream keeps nothing, 0
 * bytes. With JK_SHORT *length tells how much room is needed; the file's length is always enough. */
uint32_t jk_extras(const uint8_t *file, size_t file_length, uint8_t *boxes, size_t room, size_t *length);

/* A JP2 file with what such boxes say, at most one `colr` and one `res ` and any `xml ` and `uuid`, without coding it anew.
 * A colour takes the place of the file's, sRGB and grey by the number of components; a resolution that of its
 * resolutions; the others stand right before the codestream, behind those that it has. JK_BAD_PARAMETERS: the file is a
 * bare codestream; the profile isn't a restricted one, or not for 1 or 3 components as the file has; another colour space;
 * more than 1,024 boxes or 2^24 bytes. JK_BAD_BOX: another box. JK_BAD_VALUE: a resolution of 0. The file's length and that
 * of the boxes together are always room enough. */
uint32_t jk_with_extras(const uint8_t *file, size_t file_length, const uint8_t *boxes, size_t boxes_length, uint8_t *dressed,
                        size_t room, size_t *length);

/* The name of what a call answers. */
static inline const char *jk_fault_name(uint32_t fault)
{
    static const char *const names[] = {"Done", "Memory", "Truncated", "BadMarker", "BadLength", "BadValue",
        "Unsupported", "Limit", "PacketHeader", "TooManyPasses", "CodeOutOfInterval", "MissingPackets", "SurplusBytes",
        "BadBox", "BadPnm", "BadParameters", "BadWindow"};
    if (fault <= JK_BAD_WINDOW) return names[fault];
    return fault == JK_CHANGED ? "Changed" : fault == JK_SHORT ? "Short" : fault == JK_MISFIT ? "Misfit" : "Unknown";
}

#ifdef __cplusplus
}
#endif
#endif
