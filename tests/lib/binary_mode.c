/* Linked to a program for Windows: has it read and write bytes as they are. */
#include <fcntl.h>
#include <io.h>

__attribute__((constructor)) static void set_binary_mode(void) {
    _setmode(0, _O_BINARY);
    _setmode(1, _O_BINARY);
}
