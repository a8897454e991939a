/* What the functions of vt100.h need on a host whose numbers, sizes or pointers have another form than the module's: there,
   handles, sizes and structs pass through variables in the module's form. */
#include "vt100.h"

#if !VT100_BIG_ENDIAN && UINTPTR_MAX == 0xffffffffffffffffu && SIZE_MAX == 0xffffffffffffffffu
#define IS_LIKE_MODULE 1
#else
#define IS_LIKE_MODULE 0

#if defined(__GNUC__)
#define LOAD_ACQUIRING(at) __atomic_load_n(at, __ATOMIC_ACQUIRE)
#define STORE_RELEASING(at, value) __atomic_store_n(at, value, __ATOMIC_RELEASE)
#define STORE_RELAXED(at, value) __atomic_store_n(at, value, __ATOMIC_RELAXED)
#else
/* Without atomic operations, the program must make its first call before it starts threads. */
#define LOAD_ACQUIRING(at) (*(at))
#define STORE_RELEASING(at, value) (*(at) = (value))
#define STORE_RELAXED(at, value) (*(at) = (value))
#endif

/* Stores the addresses in the static data. Threads that come here before this is done all store the same bytes. */
HELPER void complete_static_data(void) {
#if defined(HAS_RELOCATIONS)
    static u8 is_done;
    size_t i, byte;
    if (LOAD_ACQUIRING(&is_done)) return;
    for (i = 0; i < sizeof relocations / sizeof *relocations; i++) {
        u64 address = STATIC + relocations[i].target;
        u8 *place = static_data.bytes + relocations[i].place;
        for (byte = 0; byte < 8; byte++) STORE_RELAXED(place + byte, (u8)(address >> 8 * byte));
    }
    STORE_RELEASING(&is_done, 1);
#endif
}

/* A number of the caller's that a function may replace, in the module's form. */
struct number { u8 bytes[8 + 15]; };

HELPER u64 pass_number(struct number *in, u64 value) {
    u64 at = frame_at(in->bytes);
    store64(at, value);
    return at;
}

/* A state in the module's form: 56 bytes, of which the last 24 are three sizes. */
struct state { u8 bytes[56 + 15]; };
#define OFFSET_OF_SIZES 32

HELPER u64 pass_state(struct state *in) {
    u64 at = frame_at(in->bytes);
    memory_fill(at, 0, 56);
    return at;
}
HELPER void take_state(vt100_state *out, u64 at) {
    size_t first = offsetof(vt100_state, alternate_screen), end = offsetof(vt100_state, bgcolor) + sizeof out->bgcolor;
    out->rows = (uint16_t)load16(at);
    out->cols = (uint16_t)load16(at + 2);
    out->cursor_row = (uint16_t)load16(at + 4);
    out->cursor_col = (uint16_t)load16(at + 6);
    memcpy(&out->alternate_screen, at_address(at + first), end - first);
    out->scrollback = (size_t)load64(at + OFFSET_OF_SIZES);
    out->scrollback_len = (size_t)load64(at + OFFSET_OF_SIZES + 8);
    out->scrollback_capacity = (size_t)load64(at + OFFSET_OF_SIZES + 16);
}
typedef char state_has_bytes_where_the_module_has_them[offsetof(vt100_state, alternate_screen) == 8
    && offsetof(vt100_state, bgcolor) == 24 && sizeof(vt100_cell) == 40 ? 1 : -1];

/* Room for one number per displayed row of a screen, if the caller has room for as many. */
struct ends { bool is_made; size_t count; u8 *at; };

HELPER struct ends make_ends(u64 handle, size_t room) {
    struct ends ends = {true, 0, NULL};
    struct state state;
    u64 at = pass_state(&state);
    size_t rows;
    if ((u8)w_vt100_get_state(handle, at) != VT100_OK) return ends;
    rows = load16(at);
    if (room < rows) return ends;
    ends.at = malloc(rows * 8);
    ends.is_made = ends.at != NULL;
    ends.count = rows;
    return ends;
}
HELPER void take_ends(size_t *out, struct ends *ends, bool is_done) {
    size_t i;
    for (i = 0; is_done && i < ends->count; i++) out[i] = (size_t)load64(address_of(ends->at + 8 * i));
    free(ends->at);
}
#endif
