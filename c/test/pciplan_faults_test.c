/* Prints what the library answers where all faults are to be listed, as the program does: pciplan_faults_test faults WORD..
   Each answer is asked for again with room for it alone and with a byte less, and with each growth refused in turn. Linked with
   -Wl,--wrap=rattle_alloc,--wrap=rattle_realloc; c/test.sh runs it on cases of crates/pciplan/cases. */
#include "pciplan.h"

#include <stdio.h>
#include <stdlib.h>
#include <string.h>

/* ---- growths, of which one may be refused */

struct pciplan_tried __real_rattle_alloc(size_t n, size_t align);
struct pciplan_tried __real_rattle_realloc(void *at, size_t kept, size_t n, size_t align);

static size_t growths; /* since the call began */
static size_t refuse;  /* which of them is refused, counted from 1; 0: none */

static struct pciplan_tried no_memory(void)
{
    static uint8_t none;
    struct pciplan_tried t = {0, &none};
    return t;
}

struct pciplan_tried __wrap_rattle_alloc(size_t n, size_t align)
{
    return ++growths == refuse ? no_memory() : __real_rattle_alloc(n, align);
}

struct pciplan_tried __wrap_rattle_realloc(void *at, size_t kept, size_t n, size_t align)
{
    return ++growths == refuse ? no_memory() : __real_rattle_realloc(at, kept, n, align);
}

/* ---- what is asked for */

enum { TEXT = 1 << 20, ROOM = 1 << 16, BUSES = 256, FILLED = 0xa5 };

static uint8_t dump[TEXT], probe[TEXT], roots[BUSES], text[ROOM], again[ROOM];
static size_t dump_len, probe_len, roots_len, untold = 12345;
static struct pciplan_faults_words words;

/* 4 is a status of the program alone; no case asks for it. */
static void fail(const char *why)
{
    printf("FAILED: %s\n", why);
    exit(4);
}

static size_t text_of(const char *path, uint8_t *bytes)
{
    FILE *file = fopen(path, "rb");
    size_t used;

    if (file == NULL)
        fail(path);
    used = fread(bytes, 1, TEXT, file);
    fclose(file);
    return used;
}

static struct pciplan_text word(const char *said)
{
    struct pciplan_text t = {(const uint8_t *)said, strlen(said)};
    return t;
}

/* The root buses of a list in hex digits. */
static void roots_of(const char *list)
{
    char *end;

    for (roots_len = 0; roots_len < BUSES; list = end + 1) {
        roots[roots_len++] = (uint8_t)strtoul(list, &end, 16);
        if (*end != ',')
            return;
    }
}

/* The word of an option, as `--root 00` or `--root=00`, or null. */
static const char *said(const char *option, char **at[])
{
    size_t len = strlen(option);

    if (strncmp(**at, option, len) != 0)
        return NULL;
    if ((**at)[len] == '=')
        return **at + len + 1;
    return (**at)[len] == 0 ? *++*at : NULL;
}

static void read_words(char **at)
{
    const char *paths[2], *list;
    size_t count = 0;

    words = (struct pciplan_faults_words){word(""), word(""), word(""), 0};
    roots_len = 1;
    for (; *at != NULL; at++)
        if ((list = said("--root", &at)) != NULL)
            roots_of(list);
        else if ((list = said("--model", &at)) != NULL)
            words.model = word(list);
        else if ((list = said("--host-io", &at)) != NULL)
            words.host_io = word(list);
        else if ((list = said("--host-mem", &at)) != NULL)
            words.host_mem = word(list);
        else if (strcmp(*at, "--why") == 0)
            words.why = 1;
        else if (count < 2)
            paths[count++] = *at;
    if (count != 2)
        fail("usage: pciplan_faults_test faults DUMP PROBE [WORD]..");
    dump_len = text_of(paths[0], dump);
    probe_len = text_of(paths[1], probe);
}

/* ---- calls */

/* Makes a call with this room, and sees that nothing behind what it puts is changed. The answer is the status. */
static uint8_t made(uint8_t *into, size_t room, size_t *used, size_t refused)
{
    uint8_t status;
    size_t put;

    memset(into, FILLED, ROOM);
    *used = untold;
    growths = 0;
    refuse = refused;
    status = pciplan_faults(dump, dump_len, probe, probe_len, roots, roots_len, &words, into, room, used);
    put = status < PCIPLAN_MEMORY ? *used : 0;
    while (put < ROOM && into[put] == FILLED)
        put++;
    if (put < ROOM)
        fail("bytes behind the text were changed");
    return status;
}

/* Asks again: the same comes with just room, and nothing with a byte less or where a growth is refused. */
static void ask_again(uint8_t status, size_t used)
{
    size_t all, told;

    if (made(again, used, &told, 0) != status || told != used || memcmp(text, again, ROOM) != 0)
        fail("another answer with just room");
    all = growths;
    if (made(again, used - 1, &told, 0) != PCIPLAN_SHORT || told != used)
        fail("another answer with a byte less");
    for (size_t n = 1; n <= all; n++)
        if (made(again, ROOM, &told, n) != PCIPLAN_MEMORY || told != untold)
            fail("a refused growth isn't told");
}

int main(int count, char **at)
{
    const char *message = (const char *)text;
    uint8_t status;
    size_t used;

    if (count < 2 || strcmp(at[1], "faults") != 0)
        fail("usage: pciplan_faults_test faults DUMP PROBE [WORD]..");
    read_words(at + 2);
    status = made(text, ROOM, &used, 0);
    if (status > PCIPLAN_REFUSED)
        fail("another status");
    ask_again(status, used);
    if (status != PCIPLAN_REFUSED)
        fwrite(text, 1, used, stdout);
    else if (used > 5 && memcmp(message, "host ", 5) == 0)
        fprintf(stderr, "pciplan: host --host-%.*s\n", (int)used - 5, message + 5);
    else
        fprintf(stderr, "pciplan: %.*s\n", (int)used, message);
    return status;
}
