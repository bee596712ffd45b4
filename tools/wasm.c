/* What jk's code needs as WebAssembly, for tools/build-wasm: a heap, memory for a page, and what the compiler calls.
 *
 * Addresses have 32 bits, lengths 64. A piece of the heap is a power of two, with 16 bytes in front that tell its size;
 * one that is given back is kept for the next of its size. No call of jk keeps anything, so between calls no piece is
 * given out, and the heap begins anew: it is never in more pieces than one call leaves. */
typedef __UINT8_TYPE__ uint8_t;
typedef __UINT32_TYPE__ uint32_t;
typedef __UINT64_TYPE__ uint64_t;
typedef __UINTPTR_TYPE__ uintptr_t;

enum { HEAD = 16, SIZES = 33, PAGE = 65536 };

/* How the code takes an answer of the heap: 1 and an address, or 0. */
typedef struct {
    uint64_t is_given, place;
} answer;

extern uint8_t __heap_base;

/* The next piece begins at `top`, and the memory ends at `end`, which may be 2^32. */
static uint64_t top, end;
static uint32_t given_out;
static void *kept[SIZES];

static uint32_t size_of(uint64_t bytes)
{
    return bytes <= 16 ? 4 : 64 - (uint32_t)__builtin_clzll(bytes - 1);
}

static uint8_t *size_in_front(void *place)
{
    return (uint8_t *)place - HEAD;
}

static void begin_anew(void)
{
    top = ((uintptr_t)&__heap_base + 15) & ~(uint64_t)15;
    end = (uint64_t)__builtin_wasm_memory_size(0) * PAGE;
    for (uint32_t size = 0; size < SIZES; size++) kept[size] = 0;
}

/* Whether the memory has, or can be given, so many bytes more behind `top`. */
static int has_room(uint64_t bytes)
{
    if (top + bytes <= end) return 1;
    uint64_t pages = (top + bytes - end + PAGE - 1) / PAGE;
    if (top + bytes > (uint64_t)1 << 32) return 0;
    if (__builtin_wasm_memory_grow(0, (uintptr_t)pages) == (uintptr_t)-1) return 0;
    end += pages * PAGE;
    return 1;
}

/* A piece of so many bytes, or a null pointer. */
static void *take(uint64_t bytes)
{
    uint32_t size = bytes <= (uint64_t)1 << 31 ? size_of(bytes) : SIZES;
    if (size >= SIZES) return 0;
    if (!given_out) begin_anew();
    void *piece = kept[size];
    if (piece) {
        kept[size] = *(void **)piece;
    } else {
        uint64_t whole = ((uint64_t)1 << size) + HEAD;
        if (!has_room(whole)) return 0;
        piece = (void *)(uintptr_t)(top + HEAD);
        *size_in_front(piece) = (uint8_t)size;
        top += whole;
    }
    given_out++;
    return piece;
}

/* Where there is no memory the place is one all the same, at which nothing is read or written. */
static answer answer_of(void *place)
{
    static _Alignas(16) uint8_t nowhere[16];
    answer it = {place != 0, (uintptr_t)(place ? place : nowhere)};
    return it;
}

void rattle_dealloc(void *place)
{
    uint8_t size = *size_in_front(place);
    *(void **)place = kept[size];
    kept[size] = place;
    given_out--;
}

answer rattle_alloc(uint64_t bytes, uint64_t align)
{
    return answer_of(take(bytes ? bytes : align));
}

answer rattle_realloc(void *place, uint64_t old, uint64_t bytes, uint64_t align)
{
    if (!bytes) bytes = align;
    if (bytes <= (uint64_t)1 << *size_in_front(place)) return answer_of(place);
    void *other = take(bytes);
    if (other) {
        __builtin_memcpy(other, place, (uintptr_t)old);
        rattle_dealloc(place);
    }
    return answer_of(other);
}

/* Memory for what a page hands to a call, or 0, and back. */
__attribute__((export_name("jk_take"))) void *jk_take(uint32_t bytes)
{
    return take(bytes);
}

__attribute__((export_name("jk_give_back"))) void jk_give_back(void *place)
{
    rattle_dealloc(place);
}

/* These are one instruction each, also where the code asks for them by name. */
void *memcpy(void *to, const void *from, uintptr_t bytes)
{
    return __builtin_memcpy(to, from, bytes);
}

void *memmove(void *to, const void *from, uintptr_t bytes)
{
    return __builtin_memmove(to, from, bytes);
}

void *memset(void *to, int value, uintptr_t bytes)
{
    return __builtin_memset(to, value, bytes);
}

/* Products of 128 bits. */
__int128 __multi3(__int128 a, __int128 b)
{
    uint64_t low_a = (uint64_t)a, low_b = (uint64_t)b;
    uint64_t a0 = low_a & 0xffffffffu, a1 = low_a >> 32, b0 = low_b & 0xffffffffu, b1 = low_b >> 32;
    uint64_t first = a0 * b0;
    uint64_t middle = a1 * b0 + (first >> 32);
    uint64_t other = a0 * b1 + (middle & 0xffffffffu);
    uint64_t low = other << 32 | (first & 0xffffffffu);
    uint64_t high = a1 * b1 + (middle >> 32) + (other >> 32);
    high += (uint64_t)(a >> 64) * low_b + low_a * (uint64_t)(b >> 64);
    return (__int128)((unsigned __int128)high << 64 | low);
}
