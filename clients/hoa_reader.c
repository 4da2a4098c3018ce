/*
 * hoa_reader SHOW < STREAM: reads automata of the Hanoi Omega-Automata format, version 1 (http://adl.github.io/hoaf/), by the grammar below, and
 * the two machines of a show by docs/FORMAT.md. Compares every field: the first automaton must be the rig, the second the score, and no third may
 * follow. Prints `2 machines read back`; or says on standard error in which line the stream breaks the format or what differs, with exit status 1.
 * hoa_reader --accepts < STREAM: prints nothing if it takes the stream, as one or more automata of any kind; else as above. Beyond the grammar it asks
 * what its messages say. Of properties those in the table `properties` are tested, and of names of acceptance conditions generalized-Buchi.
 * It uses nothing of the code that writes the text, and takes much that this code never writes.
 *
 *     cc -o hoa_reader clients/hoa_reader.c
 *
 * The grammar is the format's as the authors of this file remember it. Its page was not at hand, and the two have not been compared.
 *
 *     automaton   ::= "HOA:" "v1" item* "--BODY--" (state edge*)* "--END--"
 *     item        ::= "States:" INT | "Start:" states | "AP:" INT STRING* | "Alias:" ANAME expression | "Acceptance:" INT condition
 *                   | "acc-name:" IDENTIFIER (BOOLEAN | INT | IDENTIFIER)* | "tool:" STRING STRING? | "name:" STRING | "properties:" IDENTIFIER*
 *                   | HEADERNAME (BOOLEAN | INT | STRING | IDENTIFIER)*
 *     states      ::= INT | states "&" INT
 *     expression  ::= BOOLEAN | INT | ANAME | "!" expression | "(" expression ")" | expression "&" expression | expression "|" expression
 *     condition   ::= ("Inf" | "Fin") "(" "!"? INT ")" | BOOLEAN | "(" condition ")" | condition "&" condition | condition "|" condition
 *     state       ::= "State:" label? INT STRING? sets?
 *     edge        ::= label? states sets?
 *     label       ::= "[" expression "]"
 *     sets        ::= "{" INT* "}"
 *
 *     STRING      "(\\.|[^\\"])*"              IDENTIFIER  [a-zA-Z_][0-9a-zA-Z_-]*     INT      0|[1-9][0-9]*, below 2^31
 *     HEADERNAME  [a-zA-Z_][0-9a-zA-Z_-]*:    ANAME       @[0-9a-zA-Z_-]+             BOOLEAN  t|f
 *
 * White space only parts tokens, and so do comments, which begin and end as this one does and may stand one in another. "--ABORT--" gives up the
 * automaton that it stands in.
 */
#include "whole_file.h"
#include <setjmp.h>
#include <stdarg.h>
#include <string.h>

/* ---- the tokens */

/* A token of one character is that character. */
enum { STRING = 256, INT, BOOLEAN, IDENTIFIER, ANAME, HEADERNAME, BODY, END, ABORT, NOTHING };

/* The tokens from BODY to ABORT. */
static const char *const marks[] = {"--BODY--", "--END--", "--ABORT--"};

/* The stream, and how far it is read. */
static const uint8_t *text;
static size_t size, at;
static unsigned long line = 1;

/* The token that is looked at: its kind, its characters, its line, and the value of an INT. */
static int token;
static const uint8_t *word;
static size_t word_length;
static unsigned long word_line = 1, number;

/* Where reading goes on after --ABORT--, which may stand anywhere within an automaton. */
static jmp_buf aborted;
static int within;

/* Says why the stream is not taken, and ends the program. */
static _Noreturn void fail(const char *format, ...)
{
    va_list arguments;
    va_start(arguments, format);
    fprintf(stderr, "line %lu: ", word_line);
    vfprintf(stderr, format, arguments);
    fprintf(stderr, "\n");
    exit(1);
}

/* Room for one item more in an array that has `count` of them. */
static void *grown(void *items, size_t count, size_t item)
{
    if (count != 0 && (count & (count - 1)) != 0)
        return items;
    void *more = count > SIZE_MAX / 2 / item ? NULL : realloc(items, (count == 0 ? 1 : 2 * count) * item);
    if (more == NULL)
        fail("out of memory");
    return more;
}

/* The character so many places ahead, -1 past the last. */
static int ahead(size_t places)
{
    return places < size - at ? text[at + places] : -1;
}

static int is_digit(int c)
{
    return c >= '0' && c <= '9';
}

static int is_letter(int c)
{
    return (c >= 'a' && c <= 'z') || (c >= 'A' && c <= 'Z') || c == '_';
}

static int in_name(int c)
{
    return is_letter(c) || is_digit(c) || c == '-';
}

/* Passes white space and comments, which may stand one in another. */
static void skip(void)
{
    unsigned long open = 0;
    for (;;) {
        int c = ahead(0);
        if (c == '/' && ahead(1) == '*') {
            open++;
            at += 2;
        } else if (open > 0 && c == '*' && ahead(1) == '/') {
            open--;
            at += 2;
        } else if (open > 0 ? c >= 0 : c == ' ' || c == '\t' || c == '\n' || c == '\r') {
            line += c == '\n';
            at++;
        } else {
            break;
        }
    }
    if (open > 0)
        fail("a comment does not end");
}

/* Whether the token has these characters. */
static int is_word(const char *characters)
{
    return strlen(characters) == word_length && memcmp(word, characters, word_length) == 0;
}

/* The length of the string that begins here, with both quotes. */
static size_t string_length(void)
{
    size_t n = 1;
    for (; ahead(n) != '"'; n++) {
        n += ahead(n) == '\\';
        if (ahead(n) < 0)
            fail("a string does not end");
        line += ahead(n) == '\n';
    }
    return n + 1;
}

/* Looks at the next token. */
static void next(void)
{
    skip();
    word = text + at;
    word_line = line;
    word_length = 1;
    int c = ahead(0);
    token = c < 0 ? NOTHING : c;
    if (c < 0) {
        word_length = 0;
    } else if (c == '"') {
        token = STRING;
        word_length = string_length();
    } else if (is_digit(c)) {
        token = INT;
        number = (unsigned long)(c - '0');
        for (; is_digit(ahead(word_length)); word_length++) {
            number = 10 * number + (unsigned long)(ahead(word_length) - '0');
            if (c == '0' || number > 2147483647)
                fail("a number has a 0 in front, or is 2147483648 or more");
        }
    } else if (is_letter(c) || c == '@') {
        while (in_name(ahead(word_length)))
            word_length++;
        if (c == '@')
            token = ANAME;
        else if (ahead(word_length) == ':')
            token = HEADERNAME, word_length++;
        else
            token = is_word("t") || is_word("f") ? BOOLEAN : IDENTIFIER;
        if (token == ANAME && word_length == 1)
            fail("an alias has no name");
    } else if (c == '-') {
        for (int k = BODY; k <= ABORT; k++) {
            size_t n = strlen(marks[k - BODY]);
            if (n <= size - at && memcmp(word, marks[k - BODY], n) == 0) {
                token = k;
                word_length = n;
            }
        }
    }
    at += word_length;
    if (token == ABORT && within)
        longjmp(aborted, 1);
}

static int is_header(const char *name)
{
    return token == HEADERNAME && is_word(name);
}

/* Goes past a token, which must be of this kind. */
static void pass(int kind, const char *what)
{
    if (token != kind)
        fail("no %s", what);
    next();
}

static unsigned long pass_int(void)
{
    unsigned long value = number;
    pass(INT, "number");
    return value;
}

/* ---- an automaton */

/* A count that the header gives, before or after numbers that must be below it are used. */
struct count {
    const char *of;
    int given;
    unsigned long value, needed;
};

static void compare_count(const struct count *count)
{
    if (count->given && count->needed > count->value)
        fail("%lu is not below the number of %s, %lu", count->needed - 1, count->of, count->value);
}

static void give(struct count *count, unsigned long value)
{
    count->given = 1;
    count->value = value;
    compare_count(count);
}

/* Goes past a number that must be below the count. */
static unsigned long pass_below(struct count *count)
{
    if (token == INT && number >= count->needed)
        count->needed = number + 1;
    compare_count(count);
    return pass_int();
}

static struct count states, propositions, sets;

/* The bytes v for which an expression holds, bit i of v being the value of proposition i: bit v % 64 of part v / 64. Propositions from 8 on are
 * taken for false; no machine has them. */
struct bytes {
    uint64_t part[4];
};

struct name {
    const uint8_t *word;
    size_t length;
    struct bytes holds;
};

/* The names of propositions and of aliases, and what the aliases stand for. */
static struct name *names, *aliases;
static size_t name_count, alias_count;

/* The numbers k of all Inf(k) and Fin(k); whether the condition is a conjunction of Inf(k) and t alone. */
static unsigned long *infs;
static size_t inf_count;
static int is_conjunction;

/* The start states, of which only those below 64 are kept. */
static uint64_t start;

/* A state as it is listed. Of sets and successors only those below 64 are kept. */
struct state {
    unsigned long number, line;
    int labelled;
    struct bytes label;
    uint64_t sets, successors;
};

static struct state *listed;
static size_t listed_count;

/* What the automaton has, and the properties that are false of it then. Other properties are not tested. */
enum { STATE_LABEL = 1, EDGE_LABEL = 2, NO_LABEL = 4, STATE_SETS = 8, EDGE_SETS = 16, STATES_JOINED = 32 };
static unsigned has;
static const struct {
    const char *name;
    unsigned excluded;
} properties[] = {
    {"state-labels", EDGE_LABEL | NO_LABEL},
    {"trans-labels", STATE_LABEL},
    {"implicit-labels", STATE_LABEL | EDGE_LABEL},
    {"explicit-labels", NO_LABEL},
    {"state-acc", EDGE_SETS},
    {"trans-acc", STATE_SETS},
    {"no-univ-branch", STATES_JOINED},
};
#define PROPERTIES (sizeof properties / sizeof properties[0])
static int claimed[PROPERTIES];

/* The count behind acc-name: generalized-Buchi, -1 for other names, which are not compared with the condition. */
static long generalized;

/* Expressions within one another: a bound for the stack. */
static unsigned depth;

static void deeper(void)
{
    if (++depth > 1000)
        fail("an expression is too deep for this reader");
}

/* The place of the token among the names, `count` if it is not there. */
static size_t find(const struct name *among, size_t count)
{
    size_t k = 0;
    while (k < count && (among[k].length != word_length || memcmp(among[k].word, word, word_length) != 0))
        k++;
    return k;
}

/* ---- expressions, in which ! comes before &, and & before | */

static struct bytes label_or(void);

static struct bytes label_atom(void)
{
    struct bytes holds = {{0, 0, 0, 0}};
    deeper();
    if (token == '!') {
        next();
        holds = label_atom();
        for (int i = 0; i < 4; i++)
            holds.part[i] = ~holds.part[i];
    } else if (token == '(') {
        next();
        holds = label_or();
        pass(')', "closing parenthesis");
    } else if (token == ANAME) {
        size_t k = find(aliases, alias_count);
        if (k == alias_count)
            fail("an alias is used and was not defined");
        holds = aliases[k].holds;
        next();
    } else if (token == BOOLEAN) {
        memset(&holds, is_word("t") ? 255 : 0, sizeof holds);
        next();
    } else {
        unsigned long proposition = pass_below(&propositions);
        for (unsigned v = 0; v < 256; v++)
            if (proposition < 8 && (v >> proposition & 1) != 0)
                holds.part[v / 64] |= (uint64_t)1 << v % 64;
    }
    depth--;
    return holds;
}

static struct bytes label_and(void)
{
    struct bytes holds = label_atom();
    while (token == '&') {
        next();
        struct bytes other = label_atom();
        for (int i = 0; i < 4; i++)
            holds.part[i] &= other.part[i];
    }
    return holds;
}

static struct bytes label_or(void)
{
    struct bytes holds = label_and();
    while (token == '|') {
        next();
        struct bytes other = label_and();
        for (int i = 0; i < 4; i++)
            holds.part[i] |= other.part[i];
    }
    return holds;
}

/* An acceptance condition; whether it is a conjunction of Inf(k), or t, which is one of none. */
static int condition_or(void);

static int condition_atom(void)
{
    int conjunction = 0;
    deeper();
    if (token == '(') {
        next();
        conjunction = condition_or();
    } else if (token == BOOLEAN) {
        conjunction = is_word("t");
        next();
        depth--;
        return conjunction;
    } else {
        conjunction = is_word("Inf");
        if (!conjunction && !is_word("Fin"))
            fail("no acceptance condition");
        next();
        pass('(', "opening parenthesis");
        if (token == '!') {
            conjunction = 0;
            next();
        }
        infs = grown(infs, inf_count, sizeof *infs);
        infs[inf_count++] = pass_below(&sets);
    }
    pass(')', "closing parenthesis");
    depth--;
    return conjunction;
}

static int condition_and(void)
{
    int conjunction = condition_atom();
    while (token == '&') {
        next();
        conjunction &= condition_atom();
    }
    return conjunction;
}

static int condition_or(void)
{
    int conjunction = condition_and();
    while (token == '|') {
        next();
        condition_and();
        conjunction = 0;
    }
    return conjunction;
}

static int in_order(const void *x, const void *y)
{
    unsigned long a = *(const unsigned long *)x, b = *(const unsigned long *)y;
    return (a > b) - (a < b);
}

/* Whether the condition is the conjunction of Inf(k) for all sets k. */
static int is_generalized_buchi(void)
{
    unsigned long found = 0;
    if (inf_count > 0)
        qsort(infs, inf_count, sizeof *infs, in_order);
    for (size_t i = 0; i < inf_count; i++)
        found += i == 0 || infs[i] != infs[i - 1];
    return is_conjunction && found == sets.value;
}

/* ---- the header */

/* States joined by &; the bits of those below 64. */
static uint64_t pass_states(void)
{
    uint64_t mask = 0;
    for (;;) {
        unsigned long state = pass_below(&states);
        mask |= state < 64 ? (uint64_t)1 << state : 0;
        if (token != '&')
            return mask;
        has |= STATES_JOINED;
        next();
    }
}

static void pass_state_count(void)
{
    give(&states, pass_int());
}

static void pass_start(void)
{
    start |= pass_states();
}

static void pass_propositions(void)
{
    give(&propositions, pass_int());
    for (; token == STRING; next()) {
        if (find(names, name_count) < name_count)
            fail("two propositions have one name");
        names = grown(names, name_count, sizeof *names);
        names[name_count++] = (struct name){word, word_length, {{0, 0, 0, 0}}};
    }
    if (name_count != propositions.value)
        fail("%lu names of %lu propositions", (unsigned long)name_count, propositions.value);
}

static void pass_alias(void)
{
    struct name alias = {word, word_length, {{0, 0, 0, 0}}};
    if (token == ANAME && find(aliases, alias_count) < alias_count)
        fail("an alias is defined twice");
    pass(ANAME, "alias");
    alias.holds = label_or();
    aliases = grown(aliases, alias_count, sizeof *aliases);
    aliases[alias_count++] = alias;
}

static void pass_acceptance(void)
{
    give(&sets, pass_int());
    is_conjunction = condition_or();
}

static void pass_acc_name(void)
{
    int is_generalized = is_word("generalized-Buchi");
    pass(IDENTIFIER, "name of an acceptance condition");
    if (is_generalized)
        generalized = (long)pass_int();
    while (token == BOOLEAN || token == INT || token == IDENTIFIER) {
        if (is_generalized)
            fail("generalized-Buchi has more than one number");
        next();
    }
}

static void pass_tool(void)
{
    pass(STRING, "string");
    if (token == STRING)
        next();
}

static void pass_name(void)
{
    pass(STRING, "string");
}

static void pass_properties(void)
{
    for (; token == IDENTIFIER; next())
        for (size_t k = 0; k < PROPERTIES; k++)
            claimed[k] |= is_word(properties[k].name);
}

static const struct {
    const char *name;
    int many;
    void (*pass)(void);
} items[] = {
    {"States:", 0, pass_state_count},
    {"Start:", 1, pass_start},
    {"AP:", 0, pass_propositions},
    {"Alias:", 1, pass_alias},
    {"Acceptance:", 0, pass_acceptance},
    {"acc-name:", 0, pass_acc_name},
    {"tool:", 0, pass_tool},
    {"name:", 0, pass_name},
    {"properties:", 1, pass_properties},
};
#define ITEMS (sizeof items / sizeof items[0])
static int given[ITEMS];

static void pass_item(void)
{
    size_t k = 0;
    while (k < ITEMS && !is_word(items[k].name))
        k++;
    if (k == ITEMS && word[0] >= 'A' && word[0] <= 'Z')
        fail("an unknown header item, which must not be ignored, since it has a capital");
    if (k < ITEMS && given[k] && !items[k].many)
        fail("%s is given twice", items[k].name);
    next();
    if (k < ITEMS) {
        given[k] = 1;
        items[k].pass();
    } else {
        while (token == BOOLEAN || token == INT || token == STRING || token == IDENTIFIER)
            next();
    }
}

static void pass_header(void)
{
    if (!is_header("HOA:"))
        fail("no HOA:");
    next();
    if (token != IDENTIFIER || !is_word("v1"))
        fail("not version v1");
    next();
    while (token == HEADERNAME)
        pass_item();
    if (token != BODY)
        fail("no header item and no --BODY--");
    if (!sets.given)
        fail("no Acceptance:");
    if (!propositions.given)
        give(&propositions, 0);
    if (generalized >= 0 && ((unsigned long)generalized != sets.value || !is_generalized_buchi()))
        fail("Acceptance: is not that of generalized-Buchi %ld", generalized);
}

/* ---- the body */

/* A label in brackets. */
static struct bytes pass_label(void)
{
    next();
    struct bytes holds = label_or();
    pass(']', "closing bracket");
    return holds;
}

/* Sets in braces; the bits of those below 64. */
static uint64_t pass_sets(void)
{
    uint64_t mask = 0;
    next();
    while (token == INT) {
        unsigned long set = pass_below(&sets);
        mask |= set < 64 ? (uint64_t)1 << set : 0;
    }
    pass('}', "closing brace");
    return mask;
}

static void pass_state(void)
{
    struct state state = {0, word_line, 0, {{0, 0, 0, 0}}, 0, 0};
    next();
    if (token == '[') {
        state.labelled = 1;
        state.label = pass_label();
        has |= STATE_LABEL;
    }
    state.number = pass_below(&states);
    if (token == STRING)
        next();
    if (token == '{') {
        state.sets = pass_sets();
        has |= STATE_SETS;
    }
    unsigned long edges = 0, edge_labels = 0;
    for (; token == '[' || token == INT; edges++) {
        if (token == '[') {
            edge_labels++;
            pass_label();
            has |= EDGE_LABEL;
        }
        state.successors |= pass_states();
        if (token == '{') {
            pass_sets();
            has |= EDGE_SETS;
        }
    }
    if (state.labelled && edge_labels > 0)
        fail("state %lu has a label, and so has an edge of it", state.number);
    if (edge_labels > 0 && edge_labels < edges)
        fail("state %lu has edges with a label and without", state.number);
    if (!state.labelled && edge_labels == 0 && edges > 0) {
        /* these edges have their labels by their order, one for each valuation */
        has |= NO_LABEL;
        if (propositions.value > 31 || edges != 1ul << propositions.value)
            fail("state %lu has no labels, and not one edge for each valuation", state.number);
    }
    listed = grown(listed, listed_count, sizeof *listed);
    listed[listed_count++] = state;
}

static int state_order(const void *x, const void *y)
{
    const struct state *a = x, *b = y;
    return a->number != b->number ? (a->number > b->number) - (a->number < b->number) : (a->line > b->line) - (a->line < b->line);
}

static void pass_body(void)
{
    next();
    while (is_header("State:"))
        pass_state();
    if (token != END)
        fail("no edge, no state and no --END--");
    if (!states.given)
        give(&states, states.needed);
    if (listed_count > 0)
        qsort(listed, listed_count, sizeof *listed, state_order);
    for (size_t i = 1; i < listed_count; i++)
        if (listed[i].number == listed[i - 1].number)
            fail("state %lu is defined twice, in lines %lu and %lu", listed[i].number, listed[i - 1].line, listed[i].line);
    /* stricter than the format may be: a state that nothing leads to has to be listed too */
    if (listed_count != states.value)
        fail("%lu states are defined, of %lu", (unsigned long)listed_count, states.value);
    for (size_t k = 0; k < PROPERTIES; k++)
        if (claimed[k] && (has & properties[k].excluded) != 0)
            fail("the automaton has not the property %s", properties[k].name);
}

/* Reads an automaton up to its --END--, after which the states are listed in order. */
static void read_automaton(void)
{
    states = (struct count){"states", 0, 0, 0};
    propositions = (struct count){"propositions", 0, 0, 0};
    sets = (struct count){"sets", 0, 0, 0};
    name_count = alias_count = inf_count = listed_count = 0;
    is_conjunction = 0;
    generalized = -1;
    memset(claimed, 0, sizeof claimed);
    memset(given, 0, sizeof given);
    start = 0;
    has = depth = 0;
    pass_header();
    pass_body();
}

/* ---- a show, by docs/FORMAT.md */

struct machine {
    const char *name;
    unsigned long states, sets;
    uint8_t observations[64];
    uint64_t start, successors[64], fair[8];
};

static uint8_t payload(const uint8_t *show, size_t p)
{
    return show[512 * (p / 508) + 2 + p % 508];
}

static uint64_t mask_at(const uint8_t *show, size_t p)
{
    uint64_t mask = 0;
    for (size_t i = 8; i-- > 0;)
        mask = mask << 8 | payload(show, p + i);
    return mask;
}

/* Reads the machine from byte p of the payload on, whose counts are set; the byte after it. */
static size_t read_machine(const uint8_t *show, size_t p, struct machine *machine)
{
    for (size_t s = 0; s < machine->states; s++)
        machine->observations[s] = payload(show, p++);
    machine->start = mask_at(show, p);
    p += 8;
    for (size_t s = 0; s < machine->states; s++, p += 8)
        machine->successors[s] = mask_at(show, p);
    for (size_t k = 0; k < machine->sets; k++, p += 8)
        machine->fair[k] = mask_at(show, p);
    return p;
}

/* Reads the rig and the score; 0 if these bytes are no show. Checks of blocks and the table are not looked at. */
static int read_show(const uint8_t *show, size_t length, struct machine machines[2])
{
    if (length == 0 || length % 512 != 0 || memcmp(show + 2, "DOM1", 4) != 0)
        return 0;
    for (size_t k = 0; k < 2; k++) {
        machines[k].name = k == 0 ? "rig" : "score";
        machines[k].states = payload(show, 4 + k);
        machines[k].sets = payload(show, 6 + k);
        if (machines[k].states < 1 || machines[k].states > 64 || machines[k].sets < 1 || machines[k].sets > 8 - k)
            return 0;
    }
    if (32 + 9 * (machines[0].states + machines[1].states) + 8 * (machines[0].sets + machines[1].sets) > length / 512 * 508)
        return 0;
    read_machine(show, read_machine(show, 16, &machines[0]), &machines[1]);
    return 1;
}

/* ---- the comparison */

static void same(const struct machine *machine, const char *what, unsigned long long read, unsigned long long expected)
{
    if (read != expected)
        fail("%s, %s: read %llu, and the show has %llu", machine->name, what, read, expected);
}

/* The byte for which alone a label holds, 256 if it is not one. */
static unsigned only_byte(const struct bytes *holds)
{
    unsigned found = 256, count = 0;
    for (unsigned v = 0; v < 256; v++)
        if ((holds->part[v / 64] >> v % 64 & 1) != 0) {
            found = v;
            count++;
        }
    return count == 1 ? found : 256;
}

/* Compares the automaton that was read last. */
static void compare(const struct machine *machine)
{
    char what[64];
    if (propositions.value != 8)
        fail("%s: %lu propositions, not 8", machine->name, propositions.value);
    for (unsigned i = 0; i < 8; i++) {
        snprintf(what, sizeof what, "\"o%u\"", i);
        if (names[i].length != strlen(what) || memcmp(names[i].word, what, names[i].length) != 0)
            fail("%s: proposition %u is not %s", machine->name, i, what);
    }
    if (!is_generalized_buchi())
        fail("%s: not the generalized Buchi condition", machine->name);
    if ((has & (EDGE_LABEL | NO_LABEL | EDGE_SETS | STATES_JOINED)) != 0)
        fail("%s: labels or sets of edges, or states joined by &", machine->name);
    same(machine, "states", states.value, machine->states);
    same(machine, "sets", sets.value, machine->sets);
    same(machine, "start mask", start, machine->start);
    for (unsigned s = 0; s < machine->states; s++) {
        unsigned observation = listed[s].labelled ? only_byte(&listed[s].label) : 256;
        if (observation == 256)
            fail("%s, state %u: no label that holds for one byte alone", machine->name, s);
        snprintf(what, sizeof what, "observation of state %u", s);
        same(machine, what, observation, machine->observations[s]);
        snprintf(what, sizeof what, "successor mask of state %u", s);
        same(machine, what, listed[s].successors, machine->successors[s]);
    }
    for (unsigned k = 0; k < machine->sets; k++) {
        uint64_t mask = 0;
        for (unsigned s = 0; s < machine->states; s++)
            mask |= (listed[s].sets >> k & 1) << s;
        snprintf(what, sizeof what, "mask of set %u", k);
        same(machine, what, mask, machine->fair[k]);
    }
}

int main(int argc, char **argv)
{
    static struct machine machines[2];
    static size_t length, count;
    static int comparing;
    if (argc != 2) {
        fprintf(stderr, "usage: hoa_reader SHOW < STREAM, or hoa_reader --accepts < STREAM\n");
        return 1;
    }
    comparing = strcmp(argv[1], "--accepts") != 0;
    if (comparing) {
        uint8_t *show = whole_file(argv[1], &length);
        if (show == NULL) {
            perror(argv[1]);
            return 1;
        }
        if (!read_show(show, length, machines)) {
            fprintf(stderr, "%s: no show\n", argv[1]);
            return 1;
        }
        free(show);
    }
    text = whole_stream(stdin, &size);
    if (text == NULL) {
        perror("standard input");
        return 1;
    }
    next();
    while (token != NOTHING) {
        within = 1;
        if (setjmp(aborted) == 0) {
            read_automaton();
            if (comparing && count < 2)
                compare(&machines[count]);
            count++;
        }
        within = 0;
        next();
    }
    if (comparing ? count != 2 : count == 0)
        fail("the stream has %lu automata", (unsigned long)count);
    if (comparing)
        printf("2 machines read back\n");
    return 0;
}
