/* Numbers the boards of standard input, and prints each write and each answer: what crates/test_numbering prints of the same
   boards. A line has the last bus, how many are kept free behind hot-plug slots, and the board; @00 begins a root, and
   each root is numbered up to the bus before the next one. */
#include <stdio.h>
#include <stdlib.h>

#include "pciplan_board.h"
#include "pciplan_capture.h"
#include "pciplan_number.h"

static struct board board;

uint32_t pciplan_config_read(uint8_t bus, uint8_t device, uint8_t function, uint8_t offset, uint8_t width)
{
    int index;
    uint32_t value = 0;
    int there = board_answers(&board, bus, device * 8u + function, &index, 1) > 0;

    for (unsigned i = 0; i < width; i++)
        value |= (uint32_t)(there ? board.nodes[index].image[offset + i] : 0xff) << 8 * i;
    return value;
}

void pciplan_config_write(uint8_t bus, uint8_t device, uint8_t function, uint8_t offset, uint8_t width, uint32_t value)
{
    int index;

    if (width != 1)
        exit(1);
    printf("%02x:%02x.%x %02x %02x\n", bus, device, function, offset, (unsigned)value);
    if (board_answers(&board, bus, device * 8u + function, &index, 1) > 0 && board.nodes[index].takes)
        board.nodes[index].image[offset] = (uint8_t)value;
}

static void print_answer(struct pciplan_numbered answer)
{
    if (answer.status == PCIPLAN_NUMBERED)
        printf("numbered %02x\n", answer.highest);
    else if (answer.status == PCIPLAN_NO_BUS)
        printf("no bus %02x:%02x.%x %02x\n", answer.bus, answer.device, answer.function, answer.highest);
    else
        printf("stuck %02x:%02x.%x\n", answer.bus, answer.device, answer.function);
}

static void read_board(const char *at)
{
    unsigned root;

    board_empty(&board);
    while (*at == ' ')
        at++;
    while (*at == '@') {
        sscanf(at, "@%2x", &root);
        board_add_root(&board, (uint8_t)root);
        at = board_add_text(&board, at + 3, -1 - board.roots);
    }
    if (*at != 0 && *at != '\n')
        exit(1);
}

int main(void)
{
    static char line[10000];

    while (fgets(line, sizeof line, stdin) != NULL) {
        char *at;
        unsigned last = (unsigned)strtoul(line, &at, 16), spare = (unsigned)strtoul(at, &at, 16);
        printf("%s", line);
        read_board(at);
        for (int r = 0; r < board.roots; r++) {
            unsigned end = r + 1 < board.roots ? board.root[r + 1] - 1u : 0xff;
            print_answer(pciplan_number(board.root[r], (uint8_t)(last < end ? last : end), (uint8_t)spare));
        }
    }
    return 0;
}
