/*
 * console FILE [MEMORY]: prints what console_answer says of a file. It reads one block first. If that is refused, it prints the refusal's number
 * and reads no more; if the whole show is larger than MEMORY bytes (as many as any show takes, unless given), it prints 'larger than MEMORY:
 * BYTES' with both numbers and reads no more. It keeps no more of a file than its first block demands. Exit status 1 if the file cannot be read.
 *
 *     clients/archives.sh
 *     cc -o console clients/console.c target/staticlib/libconsole.a
 */
#include "hawkrusset.h"
#include <stdio.h>
#include <stdlib.h>
#include <string.h>

/* What is said of the file whose first block stands in `block` and demands `size` bytes; -1 if it cannot be read. */
static long whole(FILE *file, uint8_t *block, size_t size)
{
    uint8_t *bytes = malloc(size);
    if (bytes == NULL)
        return -1;
    memcpy(bytes, block, HAWKRUSSET_BLOCK);
    size_t count = HAWKRUSSET_BLOCK + fread(bytes + HAWKRUSSET_BLOCK, 1, size - HAWKRUSSET_BLOCK, file);
    long answer = (long)console_answer(bytes, count);
    free(bytes);
    /* what follows is counted and not kept: a file that is too long is refused with 2 or 6, by its length */
    size_t more, past = 0;
    while ((more = fread(block, 1, HAWKRUSSET_BLOCK, file)) > 0)
        past += more;
    if (ferror(file))
        return -1;
    return past == 0 ? answer : past % HAWKRUSSET_BLOCK != 0 ? 2 : 6;
}

int main(int argc, char **argv)
{
    static uint8_t block[HAWKRUSSET_BLOCK];
    unsigned long memory = HAWKRUSSET_FILE_ROOM;
    int understood = argc == 2;
    if (argc == 3) {
        char *end;
        memory = strtoul(argv[2], &end, 10);
        understood = argv[2][0] >= '0' && argv[2][0] <= '9' && *end == '\0';
    }
    if (!understood) {
        fprintf(stderr, "usage: console FILE [MEMORY]\n");
        return 1;
    }
    FILE *file = fopen(argv[1], "rb");
    if (file == NULL) {
        perror(argv[1]);
        return 1;
    }
    /* only one block is read before the size is known: a buffered file would fetch several at the first call, so it has no buffer */
    setvbuf(file, NULL, _IONBF, 0);
    size_t count = fread(block, 1, sizeof block, file);
    if (ferror(file)) {
        perror(argv[1]);
        return 1;
    }
    unsigned long size = first_block_answer(block, count);
    long answer = (long)size;
    if (size > memory && size >= HAWKRUSSET_BLOCK)
        printf("larger than %lu: %lu\n", memory, size);
    else {
        if (size >= HAWKRUSSET_BLOCK)
            answer = whole(file, block, size);
        if (answer < 0) {
            perror(argv[1]);
            return 1;
        }
        printf("%ld\n", answer);
    }
    fclose(file);
    return 0;
}
