/* Numbers boards in memory and judges each stop: worked examples, rows of bridges, and boards made by rule. It measures the
   stack that numbering uses beside the hooks. With a number as its word it prints so many of these boards and a row, and
   numbers none. */
#include <stdio.h>
#include <stdlib.h>
#include <string.h>

#include "pciplan_board.h"
#include "pciplan_capture.h"
#include "pciplan_number.h"

enum { BOARDS = 2000, MOST_NODES = 160, MOST_BRIDGES = 40, NEVER = -1 };

/* What pciplan_number.h says that it needs at most. */
enum { STACK_NEEDS = 1024 };

static struct board board;
static unsigned which;               /* the board, in messages */
static unsigned first_bus, last_bus; /* the buses of the root that is numbered */
static int writes, last_double;      /* so many were made, and the last stop at which an access was answered twice */
static int last_written, is_refused; /* the node that was written last, and whether a number wasn't taken */
static uint8_t listed[256][256];
static int listed_count, at_title;
static char *deepest; /* the frame of a hook that lay deepest */
static long stack;    /* the most that numbering used above it */
static char title[8];
static unsigned title_used;

static void stop(const char *why)
{
    fprintf(stderr, "board %u: %s\n", which, why);
    exit(1);
}

static void note_stack(char *frame)
{
    if (frame < deepest)
        deepest = frame;
}

uint32_t pciplan_config_read(uint8_t bus, uint8_t device, uint8_t function, uint8_t offset, uint8_t width)
{
    int index, count = board_answers(&board, bus, device * 8u + function, &index, 1);
    uint32_t value = 0;

    note_stack(__builtin_frame_address(0));
    if (count > 1)
        stop("a read is answered twice");
    for (unsigned i = 0; i < width; i++)
        value |= (uint32_t)(count == 1 ? board.nodes[index].image[offset + i] : 0xff) << 8 * i;
    return value;
}

void pciplan_config_write(uint8_t bus, uint8_t device, uint8_t function, uint8_t offset, uint8_t width, uint32_t value)
{
    int index;

    note_stack(__builtin_frame_address(0));
    if (board_answers(&board, bus, device * 8u + function, &index, 1) != 1)
        stop("a write isn't answered by one function");
    if (!is_bridge_node(&board.nodes[index]) || offset < 0x18 || offset > 0x1a || width != 1)
        stop("something else than a bus number is written");
    if (board.nodes[index].image[offset] == value)
        stop("a write changes nothing");
    if (board.nodes[index].takes)
        board.nodes[index].image[offset] = (uint8_t)value;
    else
        is_refused = 1;
    writes++;
    last_written = index;
    if (!board_is_single(&board, first_bus, last_bus))
        last_double = writes;
}

/* Of a captured text only the titles, "bb:dd.f", which stand first and behind an empty line. */
void pciplan_put(char character)
{
    unsigned bus, device, function;

    if (character != '\n') {
        if (at_title && title_used < 7)
            title[title_used++] = character;
        at_title = at_title && title_used <= 7;
        return;
    }
    if (title_used == 0) {
        at_title = 1;
        return;
    }
    title[title_used] = 0;
    title_used = 0;
    if (at_title && sscanf(title, "%2x:%2x.%1x", &bus, &device, &function) == 3) {
        listed[bus][device * 8 + function] = 1;
        listed_count++;
    }
    at_title = 0;
}

/* Numbers behind root r, and judges each stop. */
static struct pciplan_numbered numbered(int r, uint8_t last, uint8_t spare)
{
    struct pciplan_numbered answer;
    int was_single;

    first_bus = board.root[r];
    last_bus = r + 1 < board.roots ? board.root[r + 1] - 1u : 0xff;
    was_single = board_is_single(&board, first_bus, last_bus);
    writes = is_refused = 0;
    last_double = was_single ? NEVER : 0;
    char *from = deepest = __builtin_frame_address(0);
    answer = pciplan_number(board.root[r], last, spare);
    stack = from - deepest > stack ? from - deepest : stack;
    if (answer.writes != writes)
        stop("the writes aren't counted");
    if (last_double >= (int)answer.safe_from)
        stop("an access is answered twice");
    if (was_single && last_double != NEVER)
        stop("an access is answered twice that wasn't before");
    return answer;
}

static int has_slot(const struct node *n)
{
    return n->image[0x34] != 0;
}

struct expected {
    unsigned highest, bridges;
    uint8_t last, spare;
    int without; /* the first bridge that has no numbers, or NO_NODE */
};

/* The numbers of the bridges in the list, as defined: in the order of the walk, each the next. */
static void expect(struct expected *e, int list, unsigned bus)
{
    for (int i = list; i != NO_NODE; i = board.nodes[i].next) {
        struct node *n = &board.nodes[i];
        unsigned primary = 0, secondary = 0, subordinate = 0;
        if (!is_bridge_node(n))
            continue;
        e->bridges++;
        if (e->highest < e->last) {
            primary = bus;
            secondary = ++e->highest;
            expect(e, n->first, secondary);
            if (has_slot(n))
                e->highest = e->highest + e->spare < e->last ? e->highest + e->spare : e->last;
            subordinate = e->highest;
        } else if (e->without == NO_NODE) {
            e->without = i;
        }
        if (n->image[0x18] != primary || n->image[0x19] != secondary || n->image[0x1a] != subordinate)
            stop("a bridge has other numbers");
    }
}

static void expect_named(const struct pciplan_numbered *answer, int index)
{
    int found;

    if (board_answers(&board, answer->bus, answer->device * 8u + answer->function, &found, 1) != 1 || found != index)
        stop("another bridge is named");
}

/* How many nodes of the list and behind it aren't listed, once it stands at this bus. */
static int unlisted(int list, unsigned bus, int *count)
{
    int missing = 0;

    for (int i = list; i != NO_NODE; i = board.nodes[i].next) {
        missing += !listed[bus][board.nodes[i].place];
        ++*count;
        if (is_bridge_node(&board.nodes[i]))
            missing += unlisted(board.nodes[i].first, board.nodes[i].image[0x19], count);
    }
    return missing;
}

static void capture_all(int r, uint8_t highest)
{
    int count = 0;

    memset(listed, 0, sizeof listed);
    listed_count = 0;
    at_title = 1;
    pciplan_capture_dump(board.root[r], highest);
    if (unlisted(board.on_root[r], board.root[r], &count) != 0 || count != listed_count)
        stop("another list of functions is captured");
}

/* Numbers behind root r of a board whose bridges take their numbers. Its status. */
static uint8_t judge(int r, uint8_t last, uint8_t spare)
{
    struct pciplan_numbered answer = numbered(r, last, spare), again;
    struct expected e = {board.root[r], 0, last, spare, NO_NODE};

    expect(&e, board.on_root[r], board.root[r]);
    if (answer.status != (e.without == NO_NODE ? PCIPLAN_NUMBERED : PCIPLAN_NO_BUS) || answer.highest != e.highest)
        stop("another answer");
    if (e.without != NO_NODE)
        expect_named(&answer, e.without);
    if (answer.status == PCIPLAN_NUMBERED && answer.writes > 8 * e.bridges)
        stop("too many writes");
    if (answer.status == PCIPLAN_NUMBERED)
        capture_all(r, answer.highest);
    again = numbered(r, last, spare);
    e = (struct expected){board.root[r], 0, last, spare, NO_NODE};
    expect(&e, board.on_root[r], board.root[r]);
    if (again.status != answer.status || again.highest != answer.highest)
        stop("numbered again it is another answer");
    return answer.status;
}

static unsigned random_below(unsigned end)
{
    static uint64_t state = 20240229;
    state = state * 6364136223846793005u + 1442695040888963407u;
    return (unsigned)(state >> 33) % end;
}

static int add_bridge(int bus, unsigned place, unsigned junk)
{
    int index = board_add(&board, bus, place, 1);
    struct node *n = &board.nodes[index];

    /* old numbers out of few, so that bridges often hold the same */
    for (unsigned offset = 0x18; junk != 0 && offset <= 0x1a; offset++)
        n->image[offset] = (uint8_t)random_below(junk);
    if (random_below(4) == 0)
        board_add_slot(n);
    return index;
}

static int has_device(int bus, unsigned device)
{
    for (int i = *board_list(&board, bus); i != NO_NODE; i = board.nodes[i].next)
        if (board.nodes[i].place / 8u == device)
            return 1;
    return 0;
}

/* A device of one or several functions somewhere on the board, where there is room. How many of them are bridges. */
static unsigned add_device(int *buses, int *bus_count, unsigned most_bridges, unsigned junk)
{
    int bus = buses[random_below((unsigned)*bus_count)];
    unsigned device = random_below(32), functions = random_below(3) == 0 ? 1 + random_below(4) : 1, bridges = 0;
    int function_0 = NO_NODE;

    if (has_device(bus, device) || board.count + 4 > MOST_NODES)
        return 0;
    for (unsigned i = 0, function = 0; i < functions && function < 8; i++, function += 1 + random_below(2)) {
        int is_bridge = bridges < most_bridges && random_below(2) == 0;
        int index = is_bridge ? add_bridge(bus, device * 8 + function, junk)
                              : board_add(&board, bus, device * 8 + function, 0);
        if (is_bridge)
            buses[(*bus_count)++] = index;
        bridges += (unsigned)is_bridge;
        if (i == 0)
            function_0 = index;
        else
            board.nodes[function_0].image[0x0e] |= 0x80;
    }
    if (!(board.nodes[function_0].image[0x0e] & 0x80))
        board.nodes[function_0].echoes = (uint8_t)(random_below(4) == 0);
    return bridges;
}

static void make_board(void)
{
    static const unsigned junk_below[] = {0, 4, 16, 64, 256};
    int buses[MOST_NODES + ROOTS], bus_count = 0;
    unsigned wanted = random_below(MOST_BRIDGES + 1), bridges = 0, junk = junk_below[random_below(5)];
    int roots = 1 + (int)random_below(ROOTS);

    board_empty(&board);
    for (int r = 0; r < roots; r++) {
        board_add_root(&board, (uint8_t)(r * 80 + (int)random_below(r == 0 ? 2 : 30)));
        buses[bus_count++] = -2 - r;
    }
    for (unsigned n = 0; n < 3 * MOST_BRIDGES; n++)
        bridges += add_device(buses, &bus_count, wanted - bridges, junk);
}

/* So many bridges, one behind the other, and a device behind the last one. */
static void make_row(unsigned bridges)
{
    int bus = -2;

    board_empty(&board);
    board_add_root(&board, 0);
    for (unsigned i = 0; i < bridges; i++)
        bus = board_add(&board, bus, 1 * 8, 1);
    board_add(&board, bus, 0, 0);
}

/* As many as there are numbers, and one more. */
static void judge_rows(void)
{
    make_row(255);
    if (judge(0, 0xff, 0) != PCIPLAN_NUMBERED)
        stop("a row has no numbers");
    make_row(256);
    if (judge(0, 0xff, 0) != PCIPLAN_NO_BUS)
        stop("a row has too many numbers");
}

/* One of the bridges behind root r takes no number: nothing more is written once one reads back otherwise. */
static void judge_stuck(int r, uint8_t last, unsigned *stuck)
{
    struct pciplan_numbered answer;
    int index = (int)random_below((unsigned)board.count);

    while (index < board.count && !is_bridge_node(&board.nodes[index]))
        index++;
    if (index == board.count)
        return;
    board.nodes[index].takes = 0;
    answer = numbered(r, last, 0);
    if (is_refused != (answer.status == PCIPLAN_STUCK))
        stop("a number that wasn't taken goes unnoticed");
    if (!is_refused)
        return;
    expect_named(&answer, index);
    if (last_written != index)
        stop("something is written after a number that wasn't taken");
    ++*stuck;
}

static void judge_by_rule(unsigned count[3])
{
    for (which = 0; which < BOARDS; which++) {
        make_board();
        for (int r = 0; r < board.roots; r++) {
            unsigned end = r + 1 < board.roots ? board.root[r + 1] - 1u : 0xff;
            unsigned last = random_below(3) == 0 ? board.root[r] + random_below(30) : end;
            count[judge(r, (uint8_t)(last < end ? last : end), (uint8_t)(random_below(3) == 0 ? random_below(9) : 0))]++;
        }
        if (!board_is_single(&board, 0, 0xff))
            stop("an access is answered twice at the end");
        make_board();
        judge_stuck(0, board.roots > 1 ? (uint8_t)(board.root[1] - 1) : 0xff, &count[PCIPLAN_STUCK]);
    }
}

/* A worked example: nodes as "device.function" with numbers in parentheses, and what is behind in brackets. */
struct example {
    const char *board;
    uint8_t last, spare, status, highest;
    int writes, safe_from;
    const char *numbers;
};

static const struct example examples[] = {
    {"01.0 02.0", 0xff, 0, PCIPLAN_NUMBERED, 0, 0, 0, ""},
    {"01.0[00.0]", 0xff, 0, PCIPLAN_NUMBERED, 1, 2, 0, "00:01.0 00 01 01;"},
    {"01.0[00.0[00.0]01.0[00.0]]02.0[]", 0xff, 0, PCIPLAN_NUMBERED, 4, 12, 0,
     "00:01.0 00 01 03;01:00.0 01 02 02;01:01.0 01 03 03;00:02.0 00 04 04;"},
    {"01.0[00.0[00.0]01.0[00.0]]02.0[]", 0x03, 0, PCIPLAN_NO_BUS, 3, 9, 0,
     "00:01.0 00 01 03;01:00.0 01 02 02;01:01.0 01 03 03;00:02.0 00 00 00;"},
    {"01.0(000509)[00.0]02.0(000505)[00.0]", 0xff, 0, PCIPLAN_NUMBERED, 2, 8, 4, "00:01.0 00 01 01;00:02.0 00 02 02;"},
    {"01.0[00.0(010707)[00.0]01.0(010707)[00.0]]", 0xff, 0, PCIPLAN_NUMBERED, 3, 16, 0,
     "00:01.0 00 01 03;01:00.0 01 02 02;01:01.0 01 03 03;"},
    {"1c.0+[00.0]1c.4[]", 0xff, 2, PCIPLAN_NUMBERED, 4, 5, 0, "00:1c.0 00 01 03;00:1c.4 00 04 04;"},
};

static void print_numbers(char *text, int list, unsigned bus)
{
    for (int i = list; i != NO_NODE; i = board.nodes[i].next) {
        const struct node *n = &board.nodes[i];
        if (!is_bridge_node(n))
            continue;
        sprintf(text + strlen(text), "%02x:%02x.%x %02x %02x %02x;", bus, n->place / 8u, n->place % 8u, n->image[0x18],
                n->image[0x19], n->image[0x1a]);
        print_numbers(text, n->first, n->image[0x19]);
    }
}

static void judge_examples(void)
{
    for (which = 0; which < sizeof examples / sizeof *examples; which++) {
        const struct example *x = &examples[which];
        struct pciplan_numbered answer;
        char text[1000] = "";
        board_empty(&board);
        board_add_root(&board, 0);
        board_add_text(&board, x->board, -2);
        answer = numbered(0, x->last, x->spare);
        print_numbers(text, board.on_root[0], 0);
        if (answer.status != x->status || answer.highest != x->highest || answer.writes != x->writes ||
            answer.safe_from != x->safe_from || strcmp(text, x->numbers) != 0)
            stop("a worked example isn't answered so");
        board_empty(&board);
        board_add_root(&board, 0);
        board_add_text(&board, x->board, -2);
        if (judge(0, x->last, x->spare) != x->status)
            stop("a worked example isn't answered so");
    }
}

static void print_list(int list)
{
    for (int i = list; i != NO_NODE; i = board.nodes[i].next) {
        const struct node *n = &board.nodes[i];
        printf(" %02x.%x", n->place / 8u, n->place % 8u);
        if (!is_bridge_node(n))
            continue;
        printf("%s%s(%02x%02x%02x)[", has_slot(n) ? "+" : "", n->takes ? "" : "!", n->image[0x18], n->image[0x19],
               n->image[0x1a]);
        print_list(n->first);
        printf(" ]");
    }
}

/* Boards made by rule, as pciplan_number_told.c and crates/test_numbering read them: the last bus, how many are kept free
   behind hot-plug slots, then the board. In each fifth board a bridge takes no number. A row with one bridge too many comes
   last. */
static void print_boards(unsigned count)
{
    for (which = 0; which < count; which++) {
        make_board();

        int index = (int)random_below((unsigned)board.count);
        while (index < board.count && !is_bridge_node(&board.nodes[index]))
            index++;
        if (which % 5 == 4 && index < board.count)
            board.nodes[index].takes = 0;
        printf("%02x %02x", random_below(3) == 0 ? random_below(30) : 0xff, which % 4);
        for (int r = 0; r < board.roots; r++) {
            printf(" @%02x", board.root[r]);
            print_list(board.on_root[r]);
        }
        printf("\n");
    }
    make_row(256);
    printf("ff 00 @00");
    print_list(board.on_root[0]);
    printf("\n");
}

int main(int argc, char **argv)
{
    unsigned count[3] = {0, 0, 0};

    if (argc > 1) {
        print_boards((unsigned)atoi(argv[1]));
        return 0;
    }
    judge_examples();
    judge_rows();
    judge_by_rule(count);
    printf("%u examples, rows of 255 and 256 bridges; %u roots numbered, %u whose numbers ran out, %u with a bridge that takes"
           " none: each stop judged\n",
           (unsigned)(sizeof examples / sizeof *examples), count[PCIPLAN_NUMBERED], count[PCIPLAN_NO_BUS],
           count[PCIPLAN_STUCK]);
    printf("number: %ld bytes of stack, beside the hooks\n", stack);
    return stack > STACK_NEEDS;
}
