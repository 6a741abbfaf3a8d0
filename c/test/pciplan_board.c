#include "pciplan_board.h"

#include <stdio.h>
#include <string.h>

enum { PLACES = 256 };

void board_empty(struct board *b)
{
    memset(b, 0, sizeof *b);
}

void board_add_root(struct board *b, uint8_t root)
{
    b->root[b->roots] = root;
    b->on_root[b->roots++] = NO_NODE;
}

int *board_list(struct board *b, int bus)
{
    return bus < NO_NODE ? &b->on_root[-2 - bus] : &b->nodes[bus].first;
}

int is_bridge_node(const struct node *n)
{
    return n->image[0x0e] % 0x80 == 1;
}

int board_add(struct board *b, int bus, unsigned place, int is_bridge)
{
    int index = b->count++;
    struct node *n = &b->nodes[index];
    int *link = board_list(b, bus);

    while (*link != NO_NODE && b->nodes[*link].place < place)
        link = &b->nodes[*link].next;
    *n = (struct node){.bus = bus, .first = NO_NODE, .next = *link, .place = (uint8_t)place, .takes = 1};
    *link = index;
    n->image[0x00] = 0x34;
    n->image[0x01] = 0x12;
    n->image[0x02] = (uint8_t)index;
    n->image[0x0e] = (uint8_t)is_bridge;
    return index;
}

static int answers(const struct node *n, unsigned place)
{
    return n->place == place || (n->echoes && n->place / 8u == place / 8);
}

/* Calls `found` with each list of nodes that an access to `bus` gets to, beginning with the nodes from `first` on. */
static void reach(struct board *b, int first, unsigned bus, void (*found)(struct board *, int, void *), void *with)
{
    for (int i = first; i != NO_NODE; i = b->nodes[i].next) {
        const struct node *n = &b->nodes[i];
        unsigned secondary = n->image[0x19], subordinate = n->image[0x1a];
        if (!is_bridge_node(n))
            continue;
        if (bus == secondary)
            found(b, n->first, with);
        else if (secondary < bus && bus <= subordinate)
            reach(b, n->first, bus, found, with);
    }
}

static void reach_from_roots(struct board *b, unsigned bus, void (*found)(struct board *, int, void *), void *with)
{
    int r = b->roots - 1;

    while (r >= 0 && b->root[r] > bus)
        r--;
    if (r >= 0 && b->root[r] == bus)
        found(b, b->on_root[r], with);
    else if (r >= 0)
        reach(b, b->on_root[r], bus, found, with);
}

struct answering {
    unsigned place;
    int *nodes, room, count;
};

static void take_answering(struct board *b, int first, void *with)
{
    struct answering *a = with;

    for (int i = first; i != NO_NODE; i = b->nodes[i].next)
        if (answers(&b->nodes[i], a->place)) {
            if (a->count < a->room)
                a->nodes[a->count] = i;
            a->count++;
        }
}

int board_answers(struct board *b, unsigned bus, unsigned place, int *nodes, int room)
{
    struct answering a = {place, nodes, room, 0};

    reach_from_roots(b, bus, take_answering, &a);
    return a.count;
}

struct places {
    int lists, first; /* the lists that were reached, and the first of them */
    uint8_t taken[PLACES];
    int twice;
};

static void take_list(struct board *b, int first, struct places *p)
{
    for (int i = first; i != NO_NODE; i = b->nodes[i].next) {
        const struct node *n = &b->nodes[i];
        unsigned from = n->echoes ? n->place / 8u * 8 : n->place;
        for (unsigned place = from; place < from + (n->echoes ? 8 : 1); place++)
            p->twice |= p->taken[place]++ != 0;
    }
}

/* Within one list no two nodes answer alike, so nothing is counted before a second one is reached. */
static void take_places(struct board *b, int first, void *with)
{
    struct places *p = with;

    if (p->lists++ == 0) {
        p->first = first;
        return;
    }
    if (p->lists == 2) {
        memset(p->taken, 0, sizeof p->taken);
        take_list(b, p->first, p);
    }
    take_list(b, first, p);
}

int board_is_single(struct board *b, unsigned first, unsigned last)
{
    for (unsigned bus = first; bus <= last; bus++) {
        struct places p;
        p.lists = p.twice = 0;
        reach_from_roots(b, bus, take_places, &p);
        if (p.twice)
            return 0;
    }
    return 1;
}

void board_add_slot(struct node *n)
{
    n->image[0x06] = 0x10;
    n->image[0x34] = 0x40;
    n->image[0x40] = 0x10;
    n->image[0x43] = 0x01;
    n->image[0x54] = 0x40;
}

const char *board_add_text(struct board *b, const char *at, int bus)
{
    while (*at != 0 && *at != '\n' && *at != ']' && *at != '@') {
        unsigned device, function, number[3] = {0, 0, 0};
        int index;
        if (*at == ' ') {
            at++;
            continue;
        }
        sscanf(at, "%2x.%1x", &device, &function);
        index = board_add(b, bus, device * 8 + function, strchr(" ]\n", at[4]) == NULL);
        for (int i = 0; function != 0 && i < b->count; i++)
            if (b->nodes[i].bus == bus && b->nodes[i].place == device * 8)
                b->nodes[i].image[0x0e] |= 0x80;
        at += 4;
        if (*at == '+')
            board_add_slot(&b->nodes[index]);
        at += *at == '+';
        b->nodes[index].takes = *at != '!';
        at += *at == '!';
        if (*at == '(') {
            sscanf(at, "(%2x%2x%2x)", &number[0], &number[1], &number[2]);
            at += 8;
        }
        for (unsigned i = 0; i < 3; i++)
            b->nodes[index].image[0x18 + i] = (uint8_t)number[i];
        if (*at == '[')
            at = board_add_text(b, at + 1, index) + 1;
    }
    return at;
}
