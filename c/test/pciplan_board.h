/* A board in memory, whose bridges forward configuration accesses by their numbers (Bridge 1.2, 3.1.2.1.2). */
#ifndef PCIPLAN_BOARD_H
#define PCIPLAN_BOARD_H

#include <stdint.h>

enum { NODES = 260, ROOTS = 3, NO_NODE = -1 };

struct node {
    int bus;         /* the bridge that it is behind, or -2 - r on root r */
    int first, next; /* the first node on its other side, and the next one on its bus, or NO_NODE */
    uint8_t place;   /* device * 8 + function */
    uint8_t echoes;  /* it answers as each of its device's functions */
    uint8_t takes;   /* its numbers take writes */
    uint8_t image[256];
};

struct board {
    int count, roots;
    uint8_t root[ROOTS];
    int on_root[ROOTS];
    struct node nodes[NODES];
};

void board_empty(struct board *b);
void board_add_root(struct board *b, uint8_t root);

/* Adds a node where none is: on bus -2 - r of root r, or behind a bridge. Its index. */
int board_add(struct board *b, int bus, unsigned place, int is_bridge);

/* Makes a node a PCI Express port with a hot-plug slot: a capability at 40h. */
void board_add_slot(struct node *n);

/* Adds to a bus the nodes of a text: 01.0 is a device, 01.0[ .. ] a bridge with what is behind it. Before the bracket may
   stand + (a hot-plug slot), ! (it takes no numbers), and (000509), the numbers that it has. Where the list ends. */
const char *board_add_text(struct board *b, const char *at, int bus);

/* The list of the nodes on a bus as `board_add` names it. */
int *board_list(struct board *b, int bus);

int is_bridge_node(const struct node *n);

/* The nodes that answer an access, at most `room` of them in `nodes`. How many answer. */
int board_answers(struct board *b, unsigned bus, unsigned place, int *nodes, int room);

/* Whether at most one node answers each access to buses first to last. */
int board_is_single(struct board *b, unsigned first, unsigned last);

#endif
