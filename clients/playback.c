/*
 * playback FILE STEM.. / LOOP..: plays a lasso of the rig, given by its states, by the table of a file, and prints the score's run: 'run', the
 * stem's states, '/', the loop's states. Or it prints 'no table' or the refusal. Exit status 1 if the file or the lasso cannot be read.
 *
 *     clients/archives.sh
 *     cc -o playback clients/playback.c target/staticlib/libplayback.a
 */
#include "hawkrusset.h"
#include "whole_file.h"
#include <string.h>

#define NUMBER(n) ((unsigned long long)(n))

/* Reads states from the arguments `from` to `to`; 0 if one is no number below 256. */
static int states(char **from, char **to, uint8_t *out)
{
    for (; from < to; from++) {
        char *end;
        unsigned long state = strtoul(*from, &end, 10);
        if (**from < '0' || **from > '9' || *end != '\0' || state > 255)
            return 0;
        *out++ = (uint8_t)state;
    }
    return 1;
}

int main(int argc, char **argv)
{
    static uint8_t run[HAWKRUSSET_RUN_ROOM];
    uint64_t spot[4];
    char **last = argv + argc, **stroke = argv + 2;
    while (stroke < last && strcmp(*stroke, "/") != 0)
        stroke++;
    uint8_t *lasso = stroke < last ? malloc((size_t)argc) : NULL;
    if (lasso == NULL || !states(argv + 2, stroke, lasso) || !states(stroke + 1, last, lasso + (stroke - argv - 2))) {
        fprintf(stderr, "usage: playback FILE STEM.. / LOOP..\n");
        return 1;
    }
    size_t length = 0, stem = (size_t)(stroke - argv - 2), loop = (size_t)(last - stroke - 1);
    uint8_t *bytes = whole_file(argv[1], &length);
    if (bytes == NULL) {
        perror(argv[1]);
        return 1;
    }
    uint64_t lengths = play_file(bytes, length, lasso, stem, lasso + stem, loop, run, sizeof run, spot);
    free(bytes);
    free(lasso);
    if (lengths != 0) {
        uint64_t before = lengths / 65536, all = before + lengths % 65536;
        printf("run");
        for (uint64_t t = 0; t < all; t++)
            printf(t == before ? " / %u" : " %u", run[t]);
        printf("\n");
    } else if (spot[0] == HAWKRUSSET_NO_TABLE) {
        printf("no table\n");
    } else {
        printf("refused %llu %llu %llu %llu\n", NUMBER(spot[0]), NUMBER(spot[1]), NUMBER(spot[2]), NUMBER(spot[3]));
    }
    return 0;
}
