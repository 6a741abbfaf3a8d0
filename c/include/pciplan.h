/* The verdict, the list of faults, the plan and the settling of pciplan, the accesses that put these onto a machine, and those
   that number its buses, from C: link crates/pciplan_c/out/libpciplan_c.a, which `rt lib` makes there, or libpciplan.a or libpciplan.so.0, which
   `install.sh --library` makes of it and of c/memory/pciplan_memory.c, c/processor and c/version.

   The library holds no state, keeps nothing between calls, starts no thread and touches no file. Besides memcpy, memmove,
   memset and the compiler's own __umodti3 (libgcc has it) it needs the three functions of memory at the end;
   c/memory/pciplan_memory.c gives them over malloc, c/memory/pciplan_fixed_memory.c over an array of fixed size. The
   installed libraries have those over malloc, but a program that defines the three itself and links libpciplan.a gets its own.

   What it needs of its place; c/test.sh measures the stack:
   - x86-64, in ELF, by the System V calling convention, with the instructions of x86-64-v2 (SSE up to 4.2, POPCNT,
     CMPXCHG16B). pciplan_supported says whether the processor has them. Firmware switches SSE on first (CR0.EM clear,
     CR0.MP set, CR4.OSFXSR set), or the first call is an invalid opcode.
     `rt lib --backend rattle --cpu x86-64` builds it for every x86-64 processor; then pciplan_supported needn't be asked.
   - Stack: 32 KB for each call, but 64 KB for pciplan_faults, 48 KB for pciplan_number_step (160 bytes for each bus that
     a bridge leads to), and 240 KB for pciplan_settle, which keeps tables of all buses there. 128 bytes below the stack pointer are in use: what interrupts on the same stack leaves them alone
     (firmware is built with -mno-red-zone for that; this library isn't). In a build with `--backend rattle` nothing was
     found that does so, and pciplan_plan needs 80 KB (docs/C.md).
   - Memory: a check holds some 340 bytes a function at once, a plan some 1,860 and 17 KB more, a settling up to 200 KB
     more than a plan; lists grow by doubling. The 256 KB of c/memory/pciplan_fixed_memory.c hold a check of 512 functions
     or a plan of 128, also where these stand on one bus, each with six BARs and a ROM, or are bridges in a row, or on one
     bus with all of their writes (c/test.sh measures these).
   - Texts of at most 1,042 bytes a function, of at most 4,096 functions. A plan has at most 9 writes for a device and 11
     for a bridge, a settling at most 9 and 16; either compares 8 registers of a device and 10 of a bridge.
   - It may be called again while it runs, from another thread or an interrupt, if the three functions of memory may be.

   What the caller has to uphold, which nothing checks: each pointer is to as many bytes as its length says, and isn't
   null, even where the length is 0; they stay as they are during the call; what is written to (line, line_used,
   text, text_used, writes, writes_used, safe_from, denied, denied_used, registers, registers_used, access, step) overlaps
   nothing else that is handed in. */
#ifndef PCIPLAN_H
#define PCIPLAN_H

#include <stddef.h>
#include <stdint.h>

#ifdef __cplusplus
extern "C" {
#endif

/* The version of this header: major, minor and patch, eight bits each. */
#define PCIPLAN_VERSION 0x000500

/* The version of the library, as PCIPLAN_VERSION has it. Of c/version/pciplan_version.c. What is called at run time may be
   of another version than the header; a program that can meet such a library compares the two. The number behind
   libpciplan.so changes where a struct or a call does. */
uint32_t pciplan_version(void);

/* Whether this processor has the instructions that the library needs: 1, or 0. Of c/processor/pciplan_supported.c, which
   needs none of them. */
uint8_t pciplan_supported(void);

enum pciplan_status {
    PCIPLAN_YES = 0,     /* check, faults: both texts list the same slots, and their system is sound; plan and settle: it is
                            done */
    PCIPLAN_NO = 1,      /* that isn't so, and a fault that is there is named; faults: each of them is */
    PCIPLAN_REFUSED = 2, /* the roots are no list of roots, else a word of faults or settle has no meaning, else the dump is
                            no text, else the probe is none, else the text of told ranges of settle is none */
    PCIPLAN_MEMORY = 3,  /* a growth was refused */
    PCIPLAN_SHORT = 4    /* line, text, writes or denied is too short */
};

/* So long a line holds every answer of pciplan_check, of pciplan_plan and of pciplan_settle, and every message of
   pciplan_faults. */
#define PCIPLAN_LINE 96

/* Judges the texts of a dump and of its probe. roots are the buses on which the host's accesses start, each above the
   one before it; a plain machine has the one root 0.

   At YES and NO the verdict's line, with its line end, stands at the front of line: "yes", or "no" with the fault. At
   REFUSED a message without a line end stands there: "root", or whose text it is and its fault, as "dump: 5 BadLine 17".
   *line_used is its length, and what follows it in line isn't changed.

   At MEMORY and SHORT line isn't changed. At SHORT *line_used is the length that is needed; at MEMORY it isn't changed. */
uint8_t pciplan_check(const uint8_t *dump, size_t dump_len,
                      const uint8_t *probe, size_t probe_len,
                      const uint8_t *roots, size_t roots_len,
                      uint8_t *line, size_t line_len, size_t *line_used);

/* Bytes that lie in memory. */
struct pciplan_text {
    const uint8_t *at;
    size_t len;
};

/* What is given to pciplan_faults beside the texts, in words as on the command line (docs/FORMATS.md). A word of no byte isn't
   said.

   model has the words by which functions are taken, as "power,reset" or "all". host_io and host_mem list the ranges that the
   host sends to its root buses: "none", or ranges joined by commas, each "A-B" of all root buses or "bb:A-B" of one, as
   "0-cf7,d00-ffff". Where a list isn't said, the host sends all addresses to each root bus. why is 0 where no reasons are
   told, else they stand behind each fault. */
struct pciplan_faults_words {
    struct pciplan_text model, host_io, host_mem;
    uint8_t why;
};

/* Lists all faults of the texts of a dump and of its probe.

   At YES "yes" with its line end stands at the front of text, at NO the faults: just what the program prints by `faults`, with
   `--model`, `--host-io`, `--host-mem` and `--why` as words say. At REFUSED a message without a line end stands there: "root",
   else "model", "host io" or "host mem" for the first word without a meaning, else a message of pciplan_check. *text_used is
   its length, and what follows it in text isn't changed.

   At MEMORY nothing is changed. At SHORT text isn't, and *text_used, above text_len, is the length that is needed. So a first
   call with text_len 0 asks for the length; the list is made in both. */
uint8_t pciplan_faults(const uint8_t *dump, size_t dump_len,
                       const uint8_t *probe, size_t probe_len,
                       const uint8_t *roots, size_t roots_len,
                       const struct pciplan_faults_words *words,
                       uint8_t *text, size_t text_len, size_t *text_used);

/* A pool of addresses for I/O, for memory and for prefetchable memory, both ends of each inclusive. */
struct pciplan_pools {
    uint64_t io_first, io_last;
    uint64_t mem_first, mem_last;
    uint64_t pref_first, pref_last;
};

/* A write of width little-endian bytes, 2 or 4, to the configuration register at offset. */
struct pciplan_write {
    uint8_t bus, device, function, offset, width;
    uint32_t value;
};

/* Plans the texts of a dump and of its probe in these pools.

   At YES the writes of the plan, in the order in which they are to be made, stand at the front of writes, and
   *writes_used of them count. After *safe_from of them or more one may stop anywhere: what the registers then hold is
   sound. What follows them in writes isn't changed, nor is line; *line_used is 0.

   At NO and REFUSED line and *line_used are as pciplan_check leaves them, where NO names a fault of the texts or of
   planning. writes and *safe_from aren't changed; *writes_used is 0.

   A title of the probe that names registers as assumed, as "02:00.0 assumed 18", means nothing here: a BAR with an assumed
   size is planned like any other, and may decode more addresses than were planned for it. pciplan_settle refuses it.

   At MEMORY nothing is changed. At SHORT writes, line and *safe_from aren't: either *writes_used is above writes_len, the
   number of writes that a plan has, and *line_used is 0; or there is no plan, *line_used is above line_len, the length
   that is needed to say why, and *writes_used is 0. */
uint8_t pciplan_plan(const uint8_t *dump, size_t dump_len,
                     const uint8_t *probe, size_t probe_len,
                     const uint8_t *roots, size_t roots_len,
                     const struct pciplan_pools *pools,
                     struct pciplan_write *writes, size_t writes_len, size_t *writes_used,
                     size_t *safe_from,
                     uint8_t *line, size_t line_len, size_t *line_used);

/* What is asked of pciplan_settle, in words as on the command line (docs/FORMATS.md).

   io, mem and pref are the lists in which what gets a new place is placed, and windows and BARs on the root buses that stay
   lie in: "none", or ranges joined by commas, each "A-B" of all root buses or "bb:A-B" of one, as "1000-ffff" or
   "00:e0000000-e7ffffff,e8000000-e8ffffff", with both ends in 1 to 16 lower-case hex digits. fixed lists the slots of
   which no register may be written, as "00:1f.0,01:00.0", each above the one before it; none where it has no byte.

   spare says how many addresses are wanted behind each hot-plug slot: one to three of "io:SIZE", "mem:SIZE" and "pref:SIZE" in
   this order, joined by commas, each in hex digits as above and not 0; nothing is wanted where it has no byte. slots lists the
   bridges that have such a slot, as fixed lists its own; where it has no byte, they are those of the dump whose registers say
   so. It has a byte beside spare alone.

   also is a text of ranges that functions answer beside their BARs and ROMs: the bytes of the file of `--also`. It has no byte
   where there is no such text. Nothing is placed on these ranges, and the windows over them stay, or grow.

   anew is 0 where what stands stays where it is, else all is placed anew. Then told ranges stay all the same, and what leads to
   one: a window over it, or a BAR of a bridge above one that is marked always. */
struct pciplan_settle_words {
    struct pciplan_text io, mem, pref, fixed, spare, slots, also;
    uint8_t anew;
};

/* A window of a bridge with a slot in which the spare that is wanted has no room, by the offset of its first register: 1Ch of
   I/O, 20h of memory, 24h of prefetchable memory. */
struct pciplan_denied {
    uint8_t bus, device, function, offset;
};

/* Settles the texts of a dump and of its probe: what stands where it works stays there, and all else is placed in the lists.

   At YES writes, *writes_used, *safe_from, line and *line_used are as pciplan_plan leaves them. *safe_from is 0 where what
   the dump shows is sound, else the number of the first writes, which close functions and windows. Where all is settled
   already there are no writes. The windows whose spares have no room, the highest slot first and of a slot by rising offset,
   stand at the front of denied, and *denied_used of them count; what follows them in denied isn't changed.

   At NO a fault of the texts or of settling is named, as "no 74 Fixed 00:1f.0 10". It is "no 76 Assumed 02:00.0 18" where a
   title of the probe names this BAR as assumed, or this ROM whose bit 0 is set; a title of any other form than those of
   docs/FORMATS.md means nothing. Of told ranges it is "no 34 NotListed 02:00.0" or "no 58 Orphan 40:00.0" in the place that
   these have among the faults of the texts, or "no 75 Told 02:00.0 +1" of line 1 of also, where a range isn't reached or can't
   be kept. At REFUSED a message stands in line: "root", else "pool io", "pool mem", "pool pref", "fixed", "spare" or "slots"
   for the first word without a meaning, else a message of pciplan_check, else the fault of the text also, as
   "also: 5 BadLine 17". At both denied isn't changed, and *denied_used is 0.

   At MEMORY nothing is changed. At SHORT all is as pciplan_plan leaves it, denied isn't changed, and *denied_used is 0; or
   *denied_used, above denied_len, is the number of these windows, and *writes_used and *line_used are 0: writes may have no
   room then, either. */
uint8_t pciplan_settle(const uint8_t *dump, size_t dump_len,
                       const uint8_t *probe, size_t probe_len,
                       const uint8_t *roots, size_t roots_len,
                       const struct pciplan_settle_words *words,
                       struct pciplan_write *writes, size_t writes_len, size_t *writes_used,
                       size_t *safe_from,
                       struct pciplan_denied *denied, size_t denied_len, size_t *denied_used,
                       uint8_t *line, size_t line_len, size_t *line_used);

/* What a plan or a settling of this dump starts from: the registers that are compared before its first write, with what
   they show in the dump. Of each function, the lowest slot first, they are Command and then the address registers by rising
   offset.

   At YES they stand at the front of registers, and *registers_used of them count; what follows them isn't changed. At
   REFUSED the dump is no text (pciplan_check says why); registers isn't changed, and *registers_used is 0. At MEMORY
   nothing is changed. At SHORT registers isn't, and *registers_used, above registers_len, is how many there are. It
   doesn't answer NO. */
uint8_t pciplan_start(const uint8_t *dump, size_t dump_len,
                      struct pciplan_write *registers, size_t registers_len, size_t *registers_used);

enum pciplan_kind {
    PCIPLAN_COMPARE = 0,  /* the register is read, and is to show the value */
    PCIPLAN_MAKE = 1,     /* the value is written to it */
    PCIPLAN_READ_BACK = 2 /* it was just written, is read, and is to show the value */
};

/* An access by which a plan or a settling is put onto a machine: its register and value, how many of the writes stand where
   it is the last access, and its kind. */
struct pciplan_access {
    struct pciplan_write at;
    size_t done;
    uint8_t kind;
};

/* The n-th access, from 0 on: each of registers is compared, then each of writes is made and read back. 1, with *access; or
   0 where there are no more, and *access isn't changed. It takes no memory. */
uint8_t pciplan_step(const struct pciplan_write *registers, size_t registers_len,
                     const struct pciplan_write *writes, size_t writes_len,
                     size_t n, struct pciplan_access *access);

/* Why an access was the last one. */
enum pciplan_fault {
    PCIPLAN_FAULT_CHANGED = 80, /* a register that is compared shows another value */
    PCIPLAN_FAULT_PORT = 81,    /* the access failed */
    PCIPLAN_FAULT_STUCK = 82    /* a write reads back otherwise */
};

/* What follows from an access: YES where the next one is to be made, else a fault, which is one of access->at, with
   access->done writes made. answered is 0 where the access failed; shown is what a read showed, and of no matter for a
   write. It takes no memory. c/apply/pciplan_apply.c makes all accesses by these calls. */
uint8_t pciplan_judge(const struct pciplan_access *access, uint8_t answered, uint32_t shown);

enum pciplan_number_kind {
    PCIPLAN_READ = 0, /* a byte is read */
    PCIPLAN_WRITE = 1 /* a byte is written */
};

/* An access to a byte of a function's configuration space. */
struct pciplan_number_access {
    uint8_t bus;
    uint8_t place;  /* eight times the device, and the function */
    uint8_t offset;
    uint8_t kind;   /* of enum pciplan_number_kind */
    uint8_t value;  /* what is written, or what was read; 0 of a read that wasn't made yet */
};

enum pciplan_number_answer {
    PCIPLAN_NUMBER_DONE = 0,   /* each bridge has its numbers */
    PCIPLAN_NUMBER_NO_BUS = 1, /* they ran out: access names the first bridge without; it and all after it forward nothing */
    PCIPLAN_NUMBER_STUCK = 2,  /* access is the last write, and it read back otherwise; nothing more is to be done */
    PCIPLAN_NUMBER_ACCESS = 3  /* access is to be made next */
};

struct pciplan_number_step {
    struct pciplan_number_access access;
    size_t used;     /* so many accesses of the log were the numbering's: all, if nothing else was put into it */
    uint8_t highest; /* at DONE and NO_BUS the greatest bus number given or kept free, root where none was */
};

/* What follows from the accesses that were made to give bus numbers to the bridges behind the host's bus root, of
   enum pciplan_number_answer. log has all of them in their order, with what each read showed. The next access is made and
   appended, and the call is made again with the longer log, from log_len 0 on. Numbers are given as pciplan_number.h says:
   depth first in the order of slots, with root + 1 to last; spare numbers are kept free behind a bridge with a hot-plug
   slot. Only bytes 18h to 1Ah of bridges are written. used is at most 3,840, and 4,049 more for each
   number from root + 1 to last.

   It holds of any board whose accesses showed what log says. Where an access fails, nothing more is to be made. Each call
   goes over the whole log, so the time grows with its square: a row of 10 bridges takes 1,538 accesses and some 20 ms in
   all, one of 100 bridges 14,858 and some two seconds. It takes no memory. c/number/pciplan_number_steps.c makes all accesses by this call. */
uint8_t pciplan_number_step(const struct pciplan_number_access *log, size_t log_len,
                            uint8_t root, uint8_t last, uint8_t spare, struct pciplan_number_step *step);

/* What the library calls for memory. A block that was handed out is the library's until it is given back, and so lies
   apart from all else. It begins at a multiple of align, a power of two.

   ok is 1 where there was memory, else 0, and at then points to any byte that stays. realloc keeps the first kept bytes
   of the block at, which is the caller's no more where ok is 1, and as it was where ok is 0. */
struct pciplan_tried {
    uint8_t ok;
    void *at;
};

struct pciplan_tried rattle_alloc(size_t n, size_t align);
struct pciplan_tried rattle_realloc(void *at, size_t kept, size_t n, size_t align);
void rattle_dealloc(void *at);

#ifdef __cplusplus
}
#endif

#endif
