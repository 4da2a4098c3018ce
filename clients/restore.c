/*
 * restore FILE NEW: writes the show of a file with the solver's table to a new file, and prints what console_answer says of it; or prints
 * the refusal and writes nothing. Exit status 1 if a file cannot be read or written.
 *
 *     clients/archives.sh
 *     cc -o restore clients/restore.c target/staticlib/librestore.a target/staticlib/libconsole.a
 */
#include "hawkrusset.h"
#include "whole_file.h"

int main(int argc, char **argv)
{
    static uint8_t out[HAWKRUSSET_FILE_ROOM];
    uint64_t spot[4] = {0, 0, 0, 0};
    if (argc != 3) {
        fprintf(stderr, "usage: restore FILE NEW\n");
        return 1;
    }
    size_t length = 0;
    uint8_t *bytes = whole_file(argv[1], &length);
    if (bytes == NULL) {
        perror(argv[1]);
        return 1;
    }
    size_t size = solve_file(bytes, length, out, sizeof out, spot);
    free(bytes);
    if (size == 0) {
        printf("refused %llu %llu %llu %llu\n", (unsigned long long)spot[0], (unsigned long long)spot[1], (unsigned long long)spot[2],
               (unsigned long long)spot[3]);
        return 0;
    }
    FILE *file = fopen(argv[2], "wb");
    int written = file != NULL && fwrite(out, 1, size, file) == size;
    if (file == NULL || fclose(file) != 0 || !written) {
        perror(argv[2]);
        return 1;
    }
    printf("%lu\n", (unsigned long)console_answer(out, size));
    return 0;
}
