/*
 * watch FILE: takes turns of the solver, and prints a line for each as it ends, with how many pairs look_up_file finds still in, section by
 * section; then `finished T`, and whether the table that the last turn wrote is solve_file's; and `not finished` if one turn more makes a difference.
 * watch FILE TURNS SECTION C A: looks a pair up after so many turns, and prints `still in` or `struck out`.
 * watch FILE SECTION C A: looks a pair up in a family of full masks, of which only matched pairs count.
 * watch FILE ENTRIES: one turn from a family of full masks, with a lent table of so many entries; prints `turn 1` and how many bits it leaves in
 * each section.
 * A refusal is printed in their place, and `changed` if a call changed what it says that it leaves alone. Exit status 1 if the file cannot be read.
 *
 *     clients/archives.sh
 *     cc -o watch clients/watch.c target/staticlib/libwatch.a target/staticlib/librestore.a
 */
#include "hawkrusset.h"
#include "whole_file.h"
#include <string.h>

#define NUMBER(n) ((unsigned long long)(n))

/* The file; what the calls are lent; and copies from before the last call. */
static uint8_t *bytes;
static size_t length;
static uint64_t family[HAWKRUSSET_FAMILY], family_before[HAWKRUSSET_FAMILY];
static uint16_t table[HAWKRUSSET_TABLE], table_before[HAWKRUSSET_TABLE];
static uint64_t spot[4], spot_before[4];

static void before_call(void)
{
    memcpy(family_before, family, sizeof family);
    memcpy(table_before, table, sizeof table);
    memcpy(spot_before, spot, sizeof spot);
}

/* Ends the program at a refusal, and where something was changed: the table by all but a finishing turn, the family beside a refusal or where it
 * is only looked at, the spot beside an answer. */
static uint32_t after_call(uint32_t answer, int writes_family, int writes_table)
{
    int changed = (!writes_family && memcmp(family_before, family, sizeof family) != 0)
        || (!writes_table && memcmp(table_before, table, sizeof table) != 0)
        || (answer != 0 && memcmp(spot_before, spot, sizeof spot) != 0);
    if (changed)
        printf("changed\n");
    else if (answer == 0)
        printf("refused %llu %llu %llu %llu\n", NUMBER(spot[0]), NUMBER(spot[1]), NUMBER(spot[2]), NUMBER(spot[3]));
    if (changed || answer == 0)
        exit(0);
    return answer;
}

static void first(void)
{
    before_call();
    uint32_t answer = first_family_file(bytes, length, family, spot);
    after_call(answer, answer != 0, 0);
}

static uint32_t turn(size_t entries)
{
    before_call();
    uint32_t answer = turn_file(bytes, length, family, table, entries, spot);
    return after_call(answer, answer != 0, answer == HAWKRUSSET_FINISHED);
}

static uint32_t look_up(size_t section, size_t c, size_t a)
{
    before_call();
    return after_call(look_up_file(bytes, length, family, section, c, a, spot), 0, 0);
}

/* The counts in the first block of a file that was read: states of the rig and of the score, sets of both. */
static size_t count_at(size_t k)
{
    return bytes[6 + k];
}

static void print_turn(unsigned t)
{
    printf("turn %u", t);
    for (size_t section = 1; section <= count_at(3); section++) {
        unsigned in = 0;
        for (size_t c = 0; c < count_at(0); c++)
            for (size_t a = 0; a < count_at(1); a++)
                in += look_up(section, c, a) == HAWKRUSSET_STILL_IN;
        printf(" %u", in);
    }
    printf("\n");
}

/* Whether the table is the one in the file that solve_file makes. */
static int is_solved(void)
{
    static uint8_t solved[HAWKRUSSET_FILE_ROOM];
    if (solve_file(bytes, length, solved, sizeof solved, spot) == 0)
        return 0;
    size_t states = count_at(0) + count_at(1), sets = count_at(2) + count_at(3);
    size_t at = 32 + 9 * states + 8 * sets, entries = count_at(3) * count_at(0) * count_at(1);
    for (size_t k = 0; k < 2 * entries; k++) {
        uint8_t byte = solved[512 * ((at + k) / 508) + 2 + (at + k) % 508];
        if (byte != (k % 2 == 0 ? table[k / 2] & 255 : table[k / 2] >> 8))
            return 0;
    }
    return 1;
}

static void take_turns(void)
{
    unsigned t = 0;
    uint32_t answer;
    first();
    do {
        answer = turn(HAWKRUSSET_TABLE);
        print_turn(++t);
    } while (answer != HAWKRUSSET_FINISHED);
    printf("finished %u\n%s\n", t, is_solved() ? "solve_file's table" : "another table");
    if (turn(HAWKRUSSET_TABLE) != HAWKRUSSET_FINISHED || memcmp(family_before, family, sizeof family) != 0
        || memcmp(table_before, table, sizeof table) != 0)
        printf("not finished\n");
}

static void print_look_up(size_t section, size_t c, size_t a)
{
    printf("%s\n", look_up(section, c, a) == HAWKRUSSET_STILL_IN ? "still in" : "struck out");
}

static void take_one(size_t entries)
{
    memset(family, 255, sizeof family);
    turn(entries);
    printf("turn 1");
    for (size_t section = 0; section < count_at(3); section++) {
        unsigned in = 0;
        for (size_t c = 0; c < 64; c++)
            for (size_t a = 0; a < 64; a++)
                in += family[64 * section + c] >> a & 1;
        printf(" %u", in);
    }
    printf("\n");
}

int main(int argc, char **argv)
{
    size_t given[4] = {0, 0, 0, 0};
    if (argc != 2 && argc != 3 && argc != 5 && argc != 6) {
        fprintf(stderr, "usage: watch FILE, watch FILE TURNS SECTION C A, watch FILE SECTION C A, or watch FILE ENTRIES\n");
        return 1;
    }
    for (int i = 2; i < argc; i++)
        given[i - 2] = strtoull(argv[i], NULL, 10);
    bytes = whole_file(argv[1], &length);
    if (bytes == NULL) {
        perror(argv[1]);
        return 1;
    }
    memset(family, 77, sizeof family);
    memset(table, 77, sizeof table);
    if (argc == 2)
        take_turns();
    else if (argc == 3)
        take_one(given[0]);
    else if (argc == 5) {
        memset(family, 255, sizeof family);
        print_look_up(given[0], given[1], given[2]);
    } else {
        first();
        for (size_t t = 0; t < given[0]; t++)
            turn(HAWKRUSSET_TABLE);
        print_look_up(given[1], given[2], given[3]);
    }
    return 0;
}
