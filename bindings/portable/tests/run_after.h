/* The main function of a program that calls each of `functions` with each block of standard input, and writes the blocks
   afterwards. Its argument is the number of blocks. */
enum { BLOCK = 256 };

static ALIGNED_16 u8 block[BLOCK];

int main(int argc, char **argv) {
    size_t count = argc == 2 ? strtoul(argv[1], NULL, 10) : 0;
    u8 *blocks = malloc(count * BLOCK);
    if (blocks == NULL || fread(blocks, BLOCK, count, stdin) != count) return 1;
#if !IS_LIKE_MODULE
    complete_static_data();
#endif
    for (size_t f = 0; f < sizeof functions / sizeof *functions; f++) {
        for (size_t k = 0; k < count; k++) {
            memcpy(block, blocks + k * BLOCK, BLOCK);
            if (setjmp(caller) == 0) functions[f](address_of(block));
            else memset(block, 0xee, BLOCK);
            if (fwrite(block, BLOCK, 1, stdout) != 1) return 1;
        }
    }
    free(blocks);
    return 0;
}
