/*
 * export FILE MACHINE [ROOM]: prints a machine of a show, 0 for the rig and 1 for the score, in the Hanoi Omega-Automata format, or the refusal.
 * ROOM is how many bytes it lends, at most 40,000; 20,000 unless given. It prints `changed` if the call changed what it says that it leaves
 * alone: the bytes after the text, beside a refusal all of them, beside a text the spot. Exit status 1 if the file cannot be read or the text
 * cannot be written.
 *
 *     clients/archives.sh
 *     cc -o export clients/export.c target/staticlib/libexport.a
 */
#include "hawkrusset.h"
#include "whole_file.h"
#include <string.h>

#define NUMBER(n) ((unsigned long long)(n))
#define FILLED 0xA5

/* Reads a number; 0 if the argument is none. */
static int is_number(const char *argument, size_t *number)
{
    char *end;
    *number = strtoull(argument, &end, 10);
    return argument[0] >= '0' && argument[0] <= '9' && *end == '\0';
}

int main(int argc, char **argv)
{
    static uint8_t out[2 * HAWKRUSSET_TEXT_ROOM];
    uint64_t spot[4], filled[4];
    size_t which = 0, room = HAWKRUSSET_TEXT_ROOM;
    if ((argc != 3 && argc != 4) || !is_number(argv[2], &which) || (argc == 4 && !is_number(argv[3], &room)) || room > sizeof out) {
        fprintf(stderr, "usage: export FILE MACHINE [ROOM]\n");
        return 1;
    }
    size_t length = 0;
    uint8_t *bytes = whole_file(argv[1], &length);
    if (bytes == NULL) {
        perror(argv[1]);
        return 1;
    }
    memset(out, FILLED, sizeof out);
    memset(spot, FILLED, sizeof spot);
    memset(filled, FILLED, sizeof filled);
    size_t size = hoa_file(bytes, length, which, out, room, spot);
    free(bytes);
    int changed = size > room || (size != 0 && memcmp(spot, filled, sizeof spot) != 0);
    for (size_t k = size; k < sizeof out; k++)
        changed |= out[k] != FILLED;
    if (changed)
        printf("changed\n");
    else if (size == 0)
        printf("refused %llu %llu %llu %llu\n", NUMBER(spot[0]), NUMBER(spot[1]), NUMBER(spot[2]), NUMBER(spot[3]));
    else
        fwrite(out, 1, size, stdout);
    if (fflush(stdout) != 0 || ferror(stdout)) {
        perror("standard output");
        return 1;
    }
    return 0;
}
