/* The strings for the version and for statuses. Only these two functions of the library are written
   in C; nothing about them is proved. */
#include "vt100.h"

#define TEXT_OF(number) #number
#define VERSION(major, minor) TEXT_OF(major) "." TEXT_OF(minor)

const char *vt100_version(void) { return VERSION(VT100_VERSION_MAJOR, VT100_VERSION_MINOR); }

const char *vt100_status_text(vt100_status status) {
    switch (status) {
    case VT100_OK: return "done";
    case VT100_OUT_OF_MEMORY: return "out of memory";
    case VT100_FAILED: return "the parser or mirror ran out of memory in an earlier call";
    case VT100_BAD_ARGUMENT:
        return "bad argument: zero rows or columns; no such row, column, cell, event, viewer or "
               "position in the text; not enough room; or the same handle twice";
    case VT100_WRONG_KIND: return "the handle holds an object of a different kind";
    case VT100_OTHER_SIZE: return "the screens have different sizes";
    case VT100_NO_OBJECT: return "the handle is empty";
    case VT100_IN_USE: return "the handle is not empty";
    case VT100_NO_NUMBER: return "no viewer numbers are left";
    default: return "unknown status";
    }
}
