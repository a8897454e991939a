/*
 * NAME
 *     vt100.h - a terminal screen in memory
 *
 * SYNOPSIS
 *     #include <vt100.h>
 *     cc program.c $(pkg-config --cflags --libs vt100)
 *
 *     vt100_handle parser = VT100_EMPTY;
 *     size_t len;
 *     if (vt100_parser_new(24, 80, 0, 0, &parser) == VT100_OK
 *         && vt100_process(&parser, bytes, count) == VT100_OK
 *         && vt100_contents(&parser, &len) == VT100_OK) {
 *         uint8_t *text = malloc(len + 1);
 *         if (text != NULL) text[vt100_copy(&parser, text, len)] = 0;
 *     }
 *     vt100_free(&parser);
 *
 * DESCRIPTION
 *     A headless terminal emulator. It parses what a program writes to its terminal, maintains the
 *     screen that a person would see, and returns it as text, as a redraw for another terminal, or
 *     as a diff from an earlier screen. Rows and columns are 0-based. The library is formally
 *     verified: if the caller follows the rules below, no call aborts the program or accesses
 *     memory that it was not given.
 *
 * HANDLES
 *     The caller refers to an object of the library by a handle, which is one machine word.
 *     Initialize a handle with VT100_EMPTY. A function that creates an object requires an empty
 *     handle and stores the object in it; vt100_free frees the object and empties the handle. The
 *     library owns the object. The caller owns the handle and may move it, but must not change
 *     `at`. If a handle is copied, only one of the copies may be used from then on. A handle holds
 *     one of five kinds of objects:
 *
 *         VT100_PARSER   parses bytes, maintains a screen, and logs events
 *         VT100_SCREEN   a saved screen, which parses nothing
 *         VT100_MIRROR   parses bytes, and generates updates for viewers (other terminals)
 *         VT100_CAPTURE  the state of a capture (the text of rows with their attributes)
 *         VT100_CHARSETS the state of a translator of character sets (line drawing to Unicode)
 *
 * THREADS
 *     A handle may be passed to another thread. Only one call at a time may use a handle, even if
 *     the call only reads. Calls with different handles may run in parallel; handles share nothing.
 *
 *     The library allocates memory with malloc, realloc and free. Therefore, none of its functions
 *     may be called from a signal handler, or between fork and exec in the child of a multithreaded
 *     process.
 *
 * MEMORY AND TEXT
 *     The library uses a pointer only during the call it is passed to, and never returns a pointer
 *     to its own objects. A function that generates text stores the text in the handle and reports
 *     its length in bytes; vt100_copy copies it to the caller's memory. The text is UTF-8 without a
 *     terminating null byte. The handle keeps it until another call generates text with this
 *     handle, or until vt100_free.
 *
 *     Buffers are passed as a pointer and a length. The pointer may be null if the length is 0;
 *     otherwise it must point to at least that many elements. Pointers to handles and to results
 *     must not be null and must point to an object of their type. The memory areas passed to one
 *     call must not overlap, except that the same handle may be passed twice: the call then changes
 *     nothing and returns an error status.
 *
 * REDRAWS
 *     A redraw makes a terminal that reads it display a screen; a diff turns the display of an
 *     earlier screen into that of a later one. The statements below about their effects are proved
 *     for plain terminals and steady screens. A terminal is plain if its scroll region is the whole
 *     page, origin mode is off, no scrollback is displayed and no sequence is unfinished; every new
 *     terminal is plain. A screen is steady if every visible glyph reproduces itself when it is
 *     printed again; only glyphs with U+FE0F may fail to do so.
 *
 *     Two statements hold for every screen, steady or not. First, output for a terminal consists of
 *     printable characters, control sequences with decimal numbers (cursor movement, erasing,
 *     colors, scrolling) and a few fixed sequences. It never contains an OSC, DCS, APC, PM or SOS
 *     string, a reset, a bell, a C1 control, or a query that a terminal replies to. Second, a plain
 *     terminal that has read a redraw or a diff is plain again, so that the next full redraw of a
 *     steady screen displays that screen.
 *
 * THE ALTERNATE SCREEN
 *     The alternate screen has no scrollback. While it is active, no scrollback is displayed, the
 *     three numbers about scrollback in vt100_state are 0, and functions that display or discard
 *     scrollback do nothing.
 *
 * VERSIONS
 *     VT100_VERSION_MAJOR and VT100_VERSION_MINOR are the version of this interface. MAJOR is
 *     increased by changes that break compiled programs and is part of the name of the shared
 *     object, libvt100.so.MAJOR. MINOR is increased by additions. vt100_version returns the version
 *     of the library that a program runs with. VT100_CRATE_VERSION is the version of the Rust crate
 *     vt100 whose behavior the library reproduces.
 *
 * RUNNING A PROGRAM
 *     The prepared library runs on Linux with glibc, on 64-bit ARM processors (aarch64), on riscv64
 *     processors (as an archive only), and on x86-64 processors of level x86-64-v2 (SSE4.2 and
 *     POPCNT, available since about 2009). On older processors, programs are killed by SIGILL. The
 *     archive for x86-64 also links with musl, and there is one for Windows on x86-64, for programs
 *     that a MinGW compiler builds. For all other systems, there is the library as source in C
 *     (vt100.c and heap.c), which a compiler of C99 builds; its behavior is the same.
 *     A program linked to libvt100.a needs no other files of this library. A program linked to
 *     libvt100.so needs libvt100.so.MAJOR where the dynamic linker finds it: in a system directory,
 *     in a directory in LD_LIBRARY_PATH, or in one that was specified when linking
 *     (-Wl,-rpath,DIRECTORY).
 *
 * RETURN VALUE
 *     Most functions return a status. If it is not VT100_OK, no results are stored and nothing has
 *     changed, unless the description of the function says otherwise. The description also lists
 *     the error statuses of the function; vt100_status says what they mean. If several statuses
 *     apply, one of them is returned.
 */
#ifndef VT100_H
#define VT100_H

#include <stddef.h>
#include <stdint.h>

#ifdef __cplusplus
extern "C" {
#endif

/* ---- versions */

#define VT100_VERSION_MAJOR 1
#define VT100_VERSION_MINOR 3
#define VT100_CRATE_VERSION "0.18.1"

/* ---- handles and statuses */

/* A handle: one machine word, which is null if the handle is empty. Initialize with VT100_EMPTY. */
typedef struct vt100_handle {
    void *at;
} vt100_handle;

#ifdef __cplusplus
#define VT100_EMPTY {}
#else
#define VT100_EMPTY {0}
#endif

/* The result of a call: one of the constants below. */
typedef uint8_t vt100_status;

enum {
    VT100_OK = 0,            /* success */
    VT100_OUT_OF_MEMORY = 1, /* an allocation failed */
    VT100_FAILED = 2,        /* the parser or mirror ran out of memory before, and processes no
                                more bytes */
    VT100_BAD_ARGUMENT = 3,  /* zero rows or columns; no such row, column, cell, event, viewer or
                                position in the text; not enough room; the same handle twice */
    VT100_WRONG_KIND = 4,    /* the handle holds an object of the wrong kind */
    VT100_OTHER_SIZE = 5,    /* the screens have different sizes */
    VT100_NO_OBJECT = 6,     /* the handle is empty */
    VT100_IN_USE = 7,        /* the handle in which to store an object is not empty */
    VT100_NO_NUMBER = 8      /* the mirror has no viewer number left */
};

/* The kind of object in a handle, as returned by vt100_kind. */
enum {
    VT100_NONE = 0,
    VT100_PARSER = 1,
    VT100_SCREEN = 2,
    VT100_MIRROR = 3,
    VT100_CAPTURE = 4,
    VT100_CHARSETS = 5
};

/* Kinds of events (see EVENTS below). */
enum {
    VT100_EVENT_AUDIBLE_BELL = 0,
    VT100_EVENT_VISUAL_BELL = 1,
    VT100_EVENT_RESIZE = 2,
    VT100_EVENT_SET_WINDOW_ICON_NAME = 3,
    VT100_EVENT_SET_WINDOW_TITLE = 4,
    VT100_EVENT_COPY_TO_CLIPBOARD = 5,
    VT100_EVENT_PASTE_FROM_CLIPBOARD = 6,
    VT100_EVENT_UNHANDLED_CHAR = 7,
    VT100_EVENT_UNHANDLED_CONTROL = 8,
    VT100_EVENT_UNHANDLED_ESCAPE = 9,
    VT100_EVENT_UNHANDLED_CSI = 10,
    VT100_EVENT_UNHANDLED_OSC = 11,
    VT100_EVENT_ON_SCROLL = 12
};

/* For `wanted` of vt100_parser_new: the bit for one kind of event, and the bits for all kinds. */
#define VT100_WANTS(kind) (1u << (kind))
#define VT100_WANTS_ALL 0x1fffu

/* ---- the display */

/*
 * A color: the default color if `kind` is 0, the palette color whose index is in `red` if `kind` is
 * 1, and the color with the components `red`, `green` and `blue` if `kind` is 2. Components that
 * are not used are 0.
 */
typedef struct vt100_color {
    uint8_t kind, red, green, blue;
} vt100_color;

/* Bits of `flags`. Only cells use the last two, for a wide character and its continuation cell. */
enum {
    VT100_BOLD = 1,
    VT100_DIM = 2,
    VT100_ITALIC = 4,
    VT100_UNDERLINE = 8,
    VT100_INVERSE = 16,
    VT100_WIDE = 32,
    VT100_WIDE_CONTINUATION = 64
};

/* A cell: 40 bytes, without padding. */
typedef struct vt100_cell {
    uint8_t text[30]; /* UTF-8 in the first len bytes; the others are 0 */
    uint8_t len;      /* 0 to 29; 0 for a cell without text and for a continuation cell */
    uint8_t flags;
    vt100_color fgcolor, bgcolor;
} vt100_cell;

/*
 * The properties of a screen other than its cells: 56 bytes. The 4 bytes of padding before
 * `scrollback` are unspecified, so compare the members rather than the memory. A wrap is pending
 * after a character was printed in the last column: the next character goes to the next row.
 */
typedef struct vt100_state {
    uint16_t rows, cols;
    uint16_t cursor_row, cursor_col;   /* cursor_col equals cols if a wrap is pending */
    uint8_t alternate_screen;          /* this and the next four are 0 or 1 */
    uint8_t application_keypad;
    uint8_t application_cursor;
    uint8_t hide_cursor;
    uint8_t bracketed_paste;
    uint8_t mouse_protocol_mode;       /* 0 none, 1 press, 2 press and release, 3 button motion,
                                          4 any motion */
    uint8_t mouse_protocol_encoding;   /* 0 default, 1 UTF-8, 2 SGR */
    uint8_t cursor_style;              /* 0 default, 1 blinking block, 2 steady block, 3 blinking
                                          underline, 4 steady underline, 5 blinking bar, 6 steady
                                          bar */
    uint8_t flags;                     /* VT100_BOLD to VT100_INVERSE: attributes of the next
                                          character */
    uint8_t reserved[3];               /* 0 */
    vt100_color fgcolor, bgcolor;      /* colors of the next character */
    size_t scrollback;                 /* rows by which the display is scrolled back */
    size_t scrollback_len;             /* scrollback rows */
    size_t scrollback_capacity;        /* maximum number of scrollback rows */
} vt100_state;

/* ---- creating and freeing objects */

/*
 * Creates a parser with a blank screen that keeps at most `scrollback_capacity` scrollback rows,
 * and stores it in `out`. Bit k of `wanted` requests that events of kind k be logged (see EVENTS
 * below); 0 logs no events, which is fastest. The additional bit VT100_ROWS_WITHOUT_TEXT omits the
 * plain text from the records of rows, for callers that read rows only with vt100_capture_row.
 * VT100_IN_USE: `out` is not empty. VT100_BAD_ARGUMENT: rows or cols is 0. VT100_OUT_OF_MEMORY.
 */
vt100_status vt100_parser_new(uint16_t rows, uint16_t cols, size_t scrollback_capacity,
                              uint16_t wanted, vt100_handle *out);

/*
 * Creates a mirror without viewers, whose screen is blank and keeps at most `scrollback_capacity`
 * scrollback rows, and stores it in `out`.
 * Statuses: as for vt100_parser_new.
 */
vt100_status vt100_mirror_new(uint16_t rows, uint16_t cols, size_t scrollback_capacity,
                              vt100_handle *out);

/* Creates an empty capture and stores it in `out`. VT100_IN_USE, VT100_OUT_OF_MEMORY. */
vt100_status vt100_capture_new(vt100_handle *out);

/*
 * Creates a translator of character sets at the start of its input, and stores it in `out`.
 * VT100_IN_USE, VT100_OUT_OF_MEMORY.
 */
vt100_status vt100_charsets_new(vt100_handle *out);

/*
 * Stores a copy of the object in `out`. The copy of a parser or a saved screen is a saved screen
 * with both pages and the scrollback. The copy of a capture is a capture in the same state, without
 * text.
 * VT100_NO_OBJECT. VT100_WRONG_KIND: the handle holds a mirror or a translator. VT100_IN_USE: `out`
 * is not empty, or is the same handle. VT100_OUT_OF_MEMORY.
 */
vt100_status vt100_save(vt100_handle *handle, vt100_handle *out);

/*
 * Stores in `out` a saved screen that displays the same content as a parser or a saved screen and
 * has the same size and input modes. The copy has neither the scrollback nor the inactive page, so
 * it takes less memory than one made by vt100_save. It can be the `prev` of a later diff, including
 * vt100_state_diff. While scrollback is displayed, the copy is complete, like one made by
 * vt100_save.
 * VT100_NO_OBJECT, VT100_WRONG_KIND. VT100_IN_USE: `out` is not empty, or is the same handle.
 * VT100_OUT_OF_MEMORY.
 */
vt100_status vt100_shown_copy(vt100_handle *handle, vt100_handle *out);

/*
 * Swaps the screens of two handles that each hold a parser or a saved screen. A parser keeps its
 * events and its unfinished sequence. This function never allocates.
 * VT100_NO_OBJECT, VT100_WRONG_KIND. VT100_BAD_ARGUMENT: both are the same handle.
 */
vt100_status vt100_swap(vt100_handle *handle, vt100_handle *other);

/* Frees the object in the handle and empties the handle. Does nothing if the handle is empty. */
void vt100_free(vt100_handle *handle);

/* Returns the kind of object in the handle: VT100_NONE to VT100_CHARSETS. */
uint8_t vt100_kind(vt100_handle *handle);

/* ---- input: for a parser or a mirror */

/*
 * Parses bytes and applies them to the screen. Input may be split anywhere: an incomplete character
 * or sequence continues with the next call.
 * VT100_NO_OBJECT, VT100_WRONG_KIND.
 * VT100_OUT_OF_MEMORY: everything before the step whose allocation failed has taken effect, and
 * that step has not. From then on, vt100_process, vt100_process_until and vt100_process_until_full
 * return VT100_FAILED and process no bytes; other functions work as before.
 */
vt100_status vt100_process(vt100_handle *handle, const uint8_t *bytes, size_t len);

/*
 * Parses bytes up to and including the first byte that logs an event, or that loses the first event
 * since the log was cleared, and stores the number of bytes read in `*used`. If an event had been
 * lost before the call, nothing is logged, and all bytes are read. Call this function until all
 * bytes are read. A logged row does
 * not stop parsing if its record has no text, which is the case for every row if
 * VT100_ROWS_WITHOUT_TEXT is requested, and otherwise for each blank row. Such rows stop parsing
 * when the rows that this call has logged take 64 KiB or the log reaches its limit. Only for a
 * parser.
 * Statuses: as for vt100_process, except that a parser returns VT100_OK if `len` is 0. If the
 * status is VT100_OUT_OF_MEMORY, `*used` is the number of bytes before the one whose allocation
 * failed; for the other error statuses, it is 0.
 */
vt100_status vt100_process_until(vt100_handle *handle, const uint8_t *bytes, size_t len,
                                 size_t *used);

/*
 * Parses bytes while events of all kinds gather in the log, and stores the number of bytes read in
 * `*used`. Stops after the first byte whose events bring the log to half of its limit (512 KiB,
 * unless vt100_set_event_limit was called) or beyond, or that loses the first event since the log
 * was cleared; otherwise, all bytes are read. A caller that does not need the screen as it is at
 * each event thus reads many events with few calls. Read and clear the log, and call this function
 * again until all bytes are read: the events are then the same as those of calls to
 * vt100_process_until, in the same order.
 * If the log has reached half of its limit before the call, the first event stops parsing. If an
 * event had been lost before the call, nothing is logged, and all bytes are read. Only for a parser.
 * Since version 1.3.
 * Statuses and `*used` in case of an error: as for vt100_process_until.
 */
vt100_status vt100_process_until_full(vt100_handle *handle, const uint8_t *bytes, size_t len,
                                      size_t *used);

/*
 * Stores the number of bytes that a parser keeps for an unfinished operating system command (OSC,
 * such as one that sets the title): the bytes read after ESC ], not counting control characters.
 * Stores 0 if no command is unfinished. Only memory limits the length of a command. To enforce a
 * limit of your own, pass CAN (byte 0x18) to vt100_process: the part of the command that was read
 * is dispatched, and CAN is an unhandled_control event. Only for a parser.
 * VT100_NO_OBJECT, VT100_WRONG_KIND.
 */
vt100_status vt100_pending_len(vt100_handle *handle, size_t *len);

/*
 * Stores 1 if a parser or a mirror is in ground state, otherwise 0. In ground state, no escape
 * sequence, control string or character is half read: the bytes processed so far may be followed by
 * those of another source, and further bytes are parsed as by a new parser. For a parser or mirror
 * that ran out of memory, either value is possible. Since version 1.3.
 * VT100_NO_OBJECT, VT100_WRONG_KIND.
 */
vt100_status vt100_is_ground(vt100_handle *handle, uint8_t *out);

/*
 * Stores how often the input of a parser has asked to erase scrollback: the number of RIS (ESC c)
 * and ED 3 (CSI 3 J or CSI ? 3 J) sequences that it has processed, even if there was nothing to
 * erase. Calls of vt100_clear_scrollback are not counted. If the number has changed since an earlier
 * call, copies of scrollback rows that were made before are outdated. The number stays at UINT64_MAX
 * when it has reached it. Only for a parser. Since version 1.3.
 * VT100_NO_OBJECT, VT100_WRONG_KIND.
 */
vt100_status vt100_scrollback_erasures(vt100_handle *handle, uint64_t *count);

/* ---- sizes and scrollback */

/*
 * Resizes the terminal. A parser logs events for rows that scroll off and are not kept; a saved
 * screen and a mirror log none.
 * VT100_NO_OBJECT. VT100_WRONG_KIND: the handle holds a capture or a translator.
 * VT100_BAD_ARGUMENT: rows or cols is 0. VT100_OUT_OF_MEMORY.
 */
vt100_status vt100_set_size(vt100_handle *handle, uint16_t rows, uint16_t cols);

/*
 * Resizes the screen of a parser or a saved screen without logging events. Statuses: as for
 * vt100_set_size, and VT100_WRONG_KIND also for a mirror.
 */
vt100_status vt100_screen_set_size(vt100_handle *handle, uint16_t rows, uint16_t cols);

/*
 * Scrolls the display back by `rows` rows, or by all scrollback rows if there are fewer; 0 displays
 * the page itself. Cells and text are then those of the displayed rows, but captures still include
 * all rows, and the cursor is still that of the page. For a parser or a saved screen.
 * VT100_NO_OBJECT, VT100_WRONG_KIND, VT100_OUT_OF_MEMORY.
 */
vt100_status vt100_set_scrollback(vt100_handle *handle, size_t rows);

/*
 * Discards the scrollback without logging events. For a parser or a saved screen.
 * VT100_NO_OBJECT, VT100_WRONG_KIND.
 */
vt100_status vt100_clear_scrollback(vt100_handle *handle);

/* ---- the display: for a parser or a saved screen */

/* Stores the properties of the screen other than its cells. VT100_NO_OBJECT, VT100_WRONG_KIND. */
vt100_status vt100_get_state(vt100_handle *handle, vt100_state *out);

/*
 * Stores the displayed cell at a row and column. A scrollback row may have more cells than the
 * screen has columns.
 * VT100_NO_OBJECT, VT100_WRONG_KIND. VT100_BAD_ARGUMENT: there is no such cell.
 */
vt100_status vt100_get_cell(vt100_handle *handle, uint16_t row, uint16_t col, vt100_cell *out);

/*
 * Stores the cells of a displayed row, one for each column of the screen. `room` is the number of
 * cells that `out` has room for.
 * VT100_NO_OBJECT, VT100_WRONG_KIND. VT100_BAD_ARGUMENT: there is no such row, or not enough room.
 */
vt100_status vt100_get_cells(vt100_handle *handle, uint16_t row, vt100_cell *out, size_t room);

/*
 * Stores the cells of all displayed rows, one row after the other, with one cell for each column of
 * the screen in each row: the cell at a row and column is out[row * cols + col], where `cols` is
 * that of vt100_state. `room` is the number of cells that `out` has room for; it must be at least
 * rows * cols, and further elements of `out` are unchanged. This function never allocates.
 * VT100_NO_OBJECT, VT100_WRONG_KIND. VT100_BAD_ARGUMENT: not enough room.
 */
vt100_status vt100_get_all_cells(vt100_handle *handle, vt100_cell *out, size_t room);

/*
 * Stores 1 if a displayed row is wrapped (its text continues on the next row), otherwise 0.
 * VT100_NO_OBJECT, VT100_WRONG_KIND. VT100_BAD_ARGUMENT: there is no such row.
 */
vt100_status vt100_row_wrapped(vt100_handle *handle, uint16_t row, uint8_t *out);

/*
 * Stores the cells of a row that the screen keeps, whether it is displayed or not: as many as `out`
 * has room for, which is `room` cells. `row` is the index of the row, counted from 0: first come the
 * `scrollback_len` rows of scrollback, oldest first, and then the rows of the page. Stores the
 * number of the row's cells in `*len`, and 1 in `*wrapped` if the row is wrapped, otherwise 0. A
 * scrollback row has a length of its own, without blank cells at its end, unless it was displayed.
 * The display does not change, and nothing is allocated. Since version 1.3.
 * VT100_NO_OBJECT, VT100_WRONG_KIND. VT100_BAD_ARGUMENT: there is no such row.
 */
vt100_status vt100_get_row_cells(vt100_handle *handle, size_t row, vt100_cell *out, size_t room,
                                 size_t *len, uint8_t *wrapped);

/*
 * Stores 1 if the screen is steady, otherwise 0. On a steady screen, every displayed glyph
 * reproduces itself when it is printed on a blank row, so that redraws and diffs display the screen
 * exactly. Only U+FE0F can make a screen unsteady.
 * VT100_NO_OBJECT, VT100_WRONG_KIND.
 */
vt100_status vt100_is_steady(vt100_handle *handle, uint8_t *out);

/* ---- text: for a parser or a saved screen
 *
 * Each call stores the generated text in the first handle, and its length in bytes in `*len`;
 * vt100_copy copies the text to the caller's memory. A call that fails leaves the previous text
 * unchanged. All functions may return VT100_NO_OBJECT, VT100_WRONG_KIND and VT100_OUT_OF_MEMORY.
 */

/*
 * Generates the plain text of the displayed rows. Each row is followed by a newline, unless it is
 * wrapped and the next row has text. Newlines at the end are omitted.
 */
vt100_status vt100_contents(vt100_handle *handle, size_t *len);

/*
 * Generates the plain text of a row that the screen keeps, whether it is displayed or not, up to its
 * last character. `row` is the index of the row, as for vt100_get_row_cells. Since version 1.3.
 * VT100_BAD_ARGUMENT: there is no such row.
 */
vt100_status vt100_row_contents(vt100_handle *handle, size_t row, size_t *len);

/*
 * Generates the plain text from one position up to but excluding another, which is empty if the end
 * is before the start. Each row except the last is followed by a newline, unless it is wrapped.
 * VT100_BAD_ARGUMENT: the range has more than one row, and start_col is greater than the number of
 * columns.
 */
vt100_status vt100_contents_between(vt100_handle *handle, uint16_t start_row, uint16_t start_col,
                                    uint16_t end_row, uint16_t end_col, size_t *len);

/*
 * Generates a redraw: the escape sequences that make any plain terminal of this size display this
 * screen (see REDRAWS above).
 */
vt100_status vt100_contents_formatted(vt100_handle *handle, size_t *len);

/*
 * Generates a redraw for terminals of this size that need not be plain: they may have any scroll
 * region and origin mode, but no scrollback may be displayed and no sequence may be unfinished.
 */
vt100_status vt100_contents_formatted_reset(vt100_handle *handle, size_t *len);

/*
 * An option of redraws and diffs: the output avoids sequences on whose effects real terminals
 * disagree. It changes between bold and dim only after a reset, moves the cursor from the last
 * column only to an absolute position, and erases a wide glyph only as a whole.
 */
#define VT100_PORTABLE 8

/*
 * Generates the redraw of vt100_contents_formatted or, with the option VT100_PORTABLE, its portable
 * form. Other bits are ignored.
 */
vt100_status vt100_contents_formatted_with(vt100_handle *handle, uint8_t options, size_t *len);

/*
 * Generates the text of the displayed rows with SGR sequences for colors and attributes, and
 * without other escape sequences. Each row ends with a newline, unless it is wrapped or is the last
 * one.
 */
vt100_status vt100_contents_formatted_basic(vt100_handle *handle, size_t *len);

/*
 * Generates a redraw followed by the sequences that set the input modes. The terminal must be as
 * described for both vt100_contents_formatted and vt100_input_mode_formatted.
 */
vt100_status vt100_state_formatted(vt100_handle *handle, size_t *len);

/*
 * Generates the output of vt100_contents_formatted_with, followed by that of
 * vt100_input_mode_formatted. The option VT100_PORTABLE changes only the redraw, not the sequences
 * that set the input modes. Other bits are ignored.
 */
vt100_status vt100_state_formatted_with(vt100_handle *handle, uint8_t options, size_t *len);

/*
 * Generates the part of a redraw that moves the cursor and shows or hides it, for a plain terminal
 * of this size that displays the rows of this screen and has default attributes. If a wrap is
 * pending, this part may draw the end of a row again.
 */
vt100_status vt100_cursor_state_formatted(vt100_handle *handle, size_t *len);

/* Generates the part of a redraw that sets the attributes of the next character. */
vt100_status vt100_attributes_formatted(vt100_handle *handle, size_t *len);

/*
 * Sequences to write once to a real terminal before its first redraw. A redraw takes it for granted
 * that a terminal is as after a reset. These sequences end an unfinished string and a synchronized
 * update, and select UTF-8, ASCII in G0 to G3 instead of national characters, the full scroll
 * region without left and right margins, replace mode, automatic wrap, line feeds that keep the
 * column, a normal screen (not reverse video), bidirectional text that the terminal orders, from
 * left to right, and tab stops at every eighth column of the first 320. They move the cursor, and
 * draw nothing. Write them again when the terminal's width has changed.
 *
 * They are no redraw, and nothing is proved about them. vt100_process reports some of them as
 * unhandled. The terminal must also erase with the current background (bce), which no sequence can
 * select.
 */
#define VT100_TERMINAL_SETUP                                                                       \
    "\x1b\\\x1b[?2026l\x1b[?42l\x1b%G\x1b(B\x1b)B\x1b*B\x1b+B\x0f\x1b[?69l\x1b[r\x1b[?6l"          \
    "\x1b[4l\x1b[20l\x1b[?7h\x1b[?45l\x1b[?5l\x1b[8h\x1b[0 k\x1b[3g\r"                             \
    VT100_20_TAB_STOPS VT100_20_TAB_STOPS "\r"
#define VT100_20_TAB_STOPS                                                                         \
    VT100_5_TAB_STOPS VT100_5_TAB_STOPS VT100_5_TAB_STOPS VT100_5_TAB_STOPS
#define VT100_5_TAB_STOPS "\x1b[8C\x1bH\x1b[8C\x1bH\x1b[8C\x1bH\x1b[8C\x1bH\x1b[8C\x1bH"

/*
 * Sequences to write to a real terminal when no more output follows. They undo what redraws and
 * vt100_input_mode_formatted can leave set: they select default attributes, show the cursor, and
 * reset the input modes (keypad, cursor keys, bracketed paste, mouse) and the cursor style. They
 * leave the text and the cursor's position as they are.
 */
#define VT100_TERMINAL_RESTORE                                                                     \
    "\x1b[m\x1b[?25h\x1b>\x1b[?1l\x1b[?2004l\x1b[?9l\x1b[?1000l\x1b[?1002l\x1b[?1003l"                  \
    "\x1b[?1005l\x1b[?1006l\x1b[0 q"

/*
 * Generates the sequences that set the input modes: keypad, cursor keys, bracketed paste, mouse and
 * cursor style. The terminal must have the default mouse mode, mouse encoding and cursor style,
 * because these are set only if they are not the default.
 */
vt100_status vt100_input_mode_formatted(vt100_handle *handle, size_t *len);

/*
 * Generates a diff from the screen `prev`: the escape sequences that turn the display of `prev` on
 * a plain terminal into the display of this screen.
 * VT100_BAD_ARGUMENT: both are the same handle. VT100_OTHER_SIZE.
 */
vt100_status vt100_contents_diff(vt100_handle *handle, vt100_handle *prev, size_t *len);

/*
 * Generates a diff that may begin by moving rows or columns, and is never longer than that of
 * vt100_contents_diff, or than the redraw. It may contain LF, HT and BS: the tty must not translate output, and the tab
 * stops must be at every eighth column.
 * Statuses: as for vt100_contents_diff.
 */
vt100_status vt100_contents_diff_scrolling(vt100_handle *handle, vt100_handle *prev, size_t *len);

/*
 * Options of a diff, which can be combined with `|` and with VT100_PORTABLE; other bits are ignored.
 * VT100_DIFF_SCROLL: the diff may begin by moving rows or columns. VT100_DIFF_REPEAT: runs of a one-column character within
 * a row may be written with REP (ECMA-48, 8.3.103). VT100_DIFF_REPEAT_ASCII: runs of a printable
 * ASCII character may be, but no other runs; it has no effect with VT100_DIFF_REPEAT. Some terminals
 * ignore REP, and tmux 3.3a performs it only after ASCII characters.
 */
#define VT100_DIFF_SCROLL 1
#define VT100_DIFF_REPEAT 2
#define VT100_DIFF_REPEAT_ASCII 4

/*
 * Generates a diff with options, which is never longer than that of vt100_contents_diff or, with
 * VT100_DIFF_SCROLL, than that of vt100_contents_formatted; with VT100_PORTABLE, than the portable
 * forms of these. Without VT100_DIFF_REPEAT and VT100_DIFF_REPEAT_ASCII, it is the diff of
 * vt100_contents_diff or, with VT100_DIFF_SCROLL, of vt100_contents_diff_scrolling, or its portable
 * form, which moves no columns, and moves the cursor without HT.
 * Statuses: as for vt100_contents_diff.
 */
vt100_status vt100_contents_diff_with(vt100_handle *handle, vt100_handle *prev, uint8_t options,
                                      size_t *len);

/*
 * Generates the output of vt100_contents_diff, followed by that of vt100_input_mode_diff.
 * Statuses: as for vt100_contents_diff.
 */
vt100_status vt100_state_diff(vt100_handle *handle, vt100_handle *prev, size_t *len);

/*
 * Generates the output of vt100_contents_diff_with, followed by that of vt100_input_mode_diff. The
 * options are those of vt100_contents_diff_with; they change only the part that turns the display
 * of `prev` into that of this screen, not the sequences that set the input modes.
 * Statuses: as for vt100_contents_diff.
 */
vt100_status vt100_state_diff_with(vt100_handle *handle, vt100_handle *prev, uint8_t options,
                                   size_t *len);

/*
 * Generates the sequences that turn the input modes of `prev` into those of this screen. The
 * screens may have different sizes.
 * VT100_BAD_ARGUMENT: both are the same handle.
 */
vt100_status vt100_input_mode_diff(vt100_handle *handle, vt100_handle *prev, size_t *len);

/*
 * Generates the plain text of each displayed row in `width` columns from column `start` on, without
 * anything between the rows. The text of row k ends before byte ends[k] and begins where that of
 * the previous row ends. `room` is the number of values that `ends` has room for.
 * VT100_BAD_ARGUMENT: `room` is less than the number of rows.
 */
vt100_status vt100_rows(vt100_handle *handle, uint16_t start, uint16_t width, size_t *ends,
                        size_t room, size_t *len);

/*
 * Works like vt100_rows, but generates the output that draws each row on a blank row of a plain
 * terminal. Before the terminal reads the output of a row, it must have default attributes and its
 * cursor in column `start` of that row. Neither end of the range may split a wide character. A
 * wrapped row becomes wrapped on the terminal when the output of the whole next row is read while a
 * wrap is pending.
 * VT100_BAD_ARGUMENT: also if `start` is not a column of the screen.
 */
vt100_status vt100_rows_formatted(vt100_handle *handle, uint16_t start, uint16_t width,
                                  size_t *ends, size_t room, size_t *len);

/*
 * Works like vt100_rows_formatted, but generates the output that turns each row of `prev` into the
 * corresponding row of this screen. A row that was not wrapped becomes wrapped only if a character
 * is printed after its output before the cursor moves.
 * VT100_BAD_ARGUMENT: also if both are the same handle. VT100_OTHER_SIZE.
 */
vt100_status vt100_rows_diff(vt100_handle *handle, vt100_handle *prev, uint16_t start,
                             uint16_t width, size_t *ends, size_t room, size_t *len);

/*
 * Copies the handle's text, or its first `room` bytes if it is longer, and returns the number of
 * bytes copied, which is 0 for an empty handle. Works for every kind of object. The text stays in
 * the handle.
 */
size_t vt100_copy(vt100_handle *handle, uint8_t *out, size_t room);

/* ---- captures
 *
 * A capture is the concatenated text of rows, with SGR sequences and no other escape sequences:
 * first the rows that scroll off a screen, in order, and finally the rows that are still on it. A
 * capture object stores the state between two rows: the attributes in effect, and whether a newline
 * is due. Each call stores only the text that it adds, in the handle of the capture, and the length
 * of this text in bytes in `*len`; the caller concatenates the text of all calls.
 */

/*
 * Continues a capture with all rows of a parser or a saved screen, including scrollback.
 * VT100_NO_OBJECT, VT100_WRONG_KIND: for either handle. VT100_OUT_OF_MEMORY: the capture is
 * unchanged. VT100_BAD_ARGUMENT: both are the same handle.
 */
vt100_status vt100_capture_screen(vt100_handle *handle, vt100_handle *capture, size_t *len);

/*
 * Continues a capture with a row that scrolled off a parser's screen. `index` counts the logged
 * on_scroll events from 0.
 * VT100_NO_OBJECT, VT100_WRONG_KIND: for either handle. VT100_OUT_OF_MEMORY: the capture is
 * unchanged. VT100_BAD_ARGUMENT: there is no such event, or both are the same handle.
 */
vt100_status vt100_capture_row(vt100_handle *parser, size_t index, vt100_handle *capture,
                               size_t *len);

/*
 * Finds the next chunk of a capture's text without escape sequences, from byte `at` on. The chunk
 * is text[*start] up to but excluding text[*end]; both indices are len if there is no such chunk.
 * To find the chunk after it, pass *end as `at`.
 * VT100_BAD_ARGUMENT: the text is not UTF-8, or `at` is inside a character or past the end.
 */
vt100_status vt100_next_plain(const uint8_t *text, size_t len, size_t at, size_t *start,
                              size_t *end);

/*
 * Finds the end of the row that begins at byte `at` of a capture's text, for a screen of `width`
 * columns. The row ends before text[*end], and the next row begins at text[*next]. *next is
 * SIZE_MAX if there is no next row.
 * VT100_BAD_ARGUMENT: as for vt100_next_plain.
 */
vt100_status vt100_next_row(const uint8_t *text, size_t len, uint16_t width, size_t at, size_t *end,
                            size_t *next);

/* ---- character sets: for a translator
 *
 * A parser has no character sets. Programs that draw boxes in DEC Special Graphics, the character
 * set for line drawing, print letters such as `lqqqk` on it. A translator reads the output of such
 * a program before a parser does, and replaces these letters by Unicode characters in UTF-8. It
 * follows the designations of G0 to G3, SO, SI, the single and locking shifts, DECSC and DECRC, the
 * modes 47, 1047, 1048 and 1049, DECSTR and RIS. All other sets are read as ASCII, and all other
 * bytes stay as they are, including the designations.
 */

/*
 * Translates `len` bytes, stores the translation in `out` and its length in `*out_len`. No byte is
 * held back, and input may be split anywhere. A translation is at most three times as long as its
 * input, and `room`, the size of `out`, must be at least that: 3 * len.
 * VT100_NO_OBJECT, VT100_WRONG_KIND. VT100_BAD_ARGUMENT: `room` is less than 3 * len.
 * VT100_OUT_OF_MEMORY: the bytes may be passed again.
 */
vt100_status vt100_charsets_translate(vt100_handle *charsets, const uint8_t *bytes, size_t len,
                                      uint8_t *out, size_t room, size_t *out_len);

/* ---- EVENTS: for a parser
 *
 * The events are a program's requests other than drawing (bells, titles, sizes and the clipboard),
 * unsupported sequences, and rows that scroll off and are not kept. A parser logs the events of the
 * requested kinds as records, in order. A record consists of the kind of the event (1 byte), two
 * numbers (4 bytes each, 0 if the event has none), the length of the event's text (8 bytes) and the
 * text. All numbers are little-endian.
 *
 *      0  audible_bell
 *      1  visual_bell
 *      2  resize: rows, cols
 *      3  set_window_icon_name: text is the name
 *      4  set_window_title: text is the title
 *      5  copy_to_clipboard: text is the names of the clipboards and the base64 data, each preceded
 *         by its length in 8 bytes
 *      6  paste_from_clipboard: text is the names of the clipboards
 *      7  unhandled_char: its code point
 *      8  unhandled_control: the byte
 *      9  unhandled_escape: two intermediates, 256 for none; text is the final byte
 *     10  unhandled_csi: two intermediates, or a private marker and an intermediate, 256 for none;
 *         text is the final character in 4 bytes, then each group of numbers: its count in 8 bytes,
 *         and 2 bytes for each number
 *     11  unhandled_osc: text is the parts between semicolons, each preceded by its length in 8
 *         bytes
 *     12  on_scroll, for a row that scrolled off, or that ED 3 (CSI 3 J) erased from scrollback: 1
 *         for the alternate screen, 1 if the row is wrapped; text is its plain text, or nothing
 *         with VT100_ROWS_WITHOUT_TEXT
 *
 * A program can cause any number of events; even a single byte may scroll a thousand rows.
 * Therefore, the log has a limit, which is 1 MiB unless it is changed by vt100_set_event_limit. The
 * limit applies to the records plus 40 bytes for each cell of a row that scrolled off. Once it is
 * reached, events are lost until vt100_clear_events is called. A caller that clears the log after
 * each vt100_process_until loses events only if those of a single byte exceed the limit, or if an
 * allocation fails. After each vt100_process_until_full, it loses events only if those of a single
 * byte exceed half of the limit, or if an allocation fails.
 */

/* A bit of `wanted`: rows are logged without their text. */
enum { VT100_ROWS_WITHOUT_TEXT = 1 << 13 };

/*
 * Stores the length of all logged records in bytes. Stores 0 in *is_whole if an event was lost
 * because its allocation failed or the log had reached its limit, otherwise 1. After a loss, all
 * further events are lost, too, until vt100_clear_events is called, so that the log has no gaps.
 * VT100_NO_OBJECT, VT100_WRONG_KIND.
 */
vt100_status vt100_events(vt100_handle *handle, size_t *len, uint8_t *is_whole);

/*
 * Copies the logged records, or their first `room` bytes if they are longer, and returns the number
 * of bytes copied, which is 0 if the handle holds no parser. The log is unchanged.
 */
size_t vt100_copy_events(vt100_handle *handle, uint8_t *out, size_t room);

/* Clears the log, including the rows that scrolled off. VT100_NO_OBJECT, VT100_WRONG_KIND. */
vt100_status vt100_clear_events(vt100_handle *handle);

/*
 * Sets the limit of the log in bytes, and clears the log. With SIZE_MAX, only memory limits the
 * log.
 * VT100_NO_OBJECT, VT100_WRONG_KIND.
 */
vt100_status vt100_set_event_limit(vt100_handle *handle, size_t bytes);

/* ---- viewers of a mirror
 *
 * A viewer is a plain terminal outside the library that reads all its updates in order, and thus
 * displays the mirror's screen as it was at the last update. A viewer's first update, and its first
 * update after a resize, redraws the screen; every other update is a diff from the screen of the
 * previous update.
 */

/*
 * Adds a viewer and stores its number, which is never reused.
 * VT100_NO_OBJECT, VT100_WRONG_KIND, VT100_NO_NUMBER, VT100_OUT_OF_MEMORY.
 */
vt100_status vt100_join(vt100_handle *mirror, uint64_t *viewer);

/*
 * Removes a viewer. VT100_NO_OBJECT, VT100_WRONG_KIND. VT100_BAD_ARGUMENT: there is no such viewer.
 */
vt100_status vt100_leave(vt100_handle *mirror, uint64_t viewer);

/*
 * Generates the next update of a viewer; the updates after it assume that the viewer has read it.
 * For a redraw, stores in *rows and *cols the size to which the viewer's terminal must be resized
 * first; for a diff, stores 0 in both.
 * VT100_NO_OBJECT, VT100_WRONG_KIND, VT100_OUT_OF_MEMORY. VT100_BAD_ARGUMENT: there is no such
 * viewer.
 */
vt100_status vt100_update(vt100_handle *mirror, uint64_t viewer, uint16_t *rows, uint16_t *cols,
                          size_t *len);

/*
 * Works like vt100_update, but a diff may begin by moving rows or columns, and is never longer than
 * that of vt100_update, or than the redraw. If the screen of the viewer's last update was not steady,
 * the update is a redraw, which corrects the viewer's display.
 */
vt100_status vt100_update_scrolling(vt100_handle *mirror, uint64_t viewer, uint16_t *rows,
                                    uint16_t *cols, size_t *len);

/*
 * Works like vt100_update, but a diff has the given options (see VT100_DIFF_SCROLL), and is never
 * longer than that of vt100_update or, with VT100_PORTABLE, than its portable form. With
 * VT100_PORTABLE, a redraw is portable, too. With VT100_DIFF_SCROLL, the update may be a redraw, as
 * with vt100_update_scrolling.
 */
vt100_status vt100_update_with(vt100_handle *mirror, uint64_t viewer, uint8_t options,
                               uint16_t *rows, uint16_t *cols, size_t *len);

/*
 * Stores 1 if the viewer is known to be up to date, otherwise 0. The next update of an up-to-date
 * viewer is an empty diff, except that vt100_update_scrolling and VT100_DIFF_SCROLL redraw a screen
 * that is not steady. The value is 0 if the viewer has had no update since it joined or since the
 * last resize, if vt100_process was called since its last update (even if nothing displayed has
 * changed), and if there is no such viewer. This function neither allocates nor reads cells.
 * VT100_NO_OBJECT, VT100_WRONG_KIND.
 */
vt100_status vt100_mirror_is_current(vt100_handle *mirror, uint64_t viewer, uint8_t *out);

/* ---- the version and status messages: the returned pointers are never null, and always valid */

/*
 * Returns the interface version of the library that the program runs with, such as "1.3":
 * VT100_VERSION_MAJOR and VT100_VERSION_MINOR of that library's header. A program linked to the
 * shared object may run with a later MINOR than it was compiled with.
 */
const char *vt100_version(void);

/*
 * Returns the meaning of a status, in English, without a newline. The text for VT100_BAD_ARGUMENT
 * lists the reasons of all functions, because a status does not say which function returned it; the
 * description of a function lists those that apply to it.
 */
const char *vt100_status_text(vt100_status status);

#ifdef __cplusplus
}
#endif
#endif
