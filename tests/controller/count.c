/* A plugin of qemu-system-arm (API 1, as in qemu 7.2): instructions and modelled Cortex-M0 cycles of each run from address `start` up
 * to the next execution of address `stop`, one line a run; with `profile`, the cycles of the longest run by address, to that file.
 *   gcc -shared -fPIC -O2 -o count.so count.c
 *   qemu-system-arm .. -plugin ./count.so,start=0x..,stop=0x..,profile=FILE -d plugin
 * The cycles are those of the Cortex-M0's manual: memory without wait states, the multiplier of one cycle. They mean something for
 * ARMv6-M code alone. Debian has no header for plugins, so what is used is declared here. */
#include <inttypes.h>
#include <stdio.h>
#include <stdlib.h>
#include <string.h>

typedef uint64_t id;
struct qemu_plugin_tb;
struct qemu_plugin_insn;
void qemu_plugin_register_vcpu_tb_trans_cb(id, void (*)(id, struct qemu_plugin_tb *));
void qemu_plugin_register_vcpu_insn_exec_cb(struct qemu_plugin_insn *, void (*)(unsigned, void *), int, void *);
void qemu_plugin_register_atexit_cb(id, void (*)(id, void *), void *);
size_t qemu_plugin_tb_n_insns(const struct qemu_plugin_tb *);
struct qemu_plugin_insn *qemu_plugin_tb_get_insn(const struct qemu_plugin_tb *, size_t);
uint64_t qemu_plugin_insn_vaddr(const struct qemu_plugin_insn *);
const void *qemu_plugin_insn_data(const struct qemu_plugin_insn *);
void qemu_plugin_outs(const char *);
__attribute__((visibility("default"))) int qemu_plugin_version = 1;

enum { FLASH = 256 * 1024 };
struct instruction { uint64_t address, next; unsigned cycles, if_taken; };

static uint64_t start, stop, count, cycles, most;
static int running;
static const struct instruction *before;
static uint64_t spent[FLASH / 2], spent_most[FLASH / 2];    /* by address, in this run and in the longest */
static const char *profile;

/* An instruction by its first halfword. (The emulator's word for its size is not asked: it is 4 before the end of a page.) */
static void model(struct instruction *i, unsigned word)
{
    unsigned top = word >> 11, list = __builtin_popcount(word & 0xFF);
    i->next = i->address + (top > 28 ? 4 : 2);
    i->cycles = 1;
    i->if_taken = 0;
    if (top > 28)
        i->cycles = 4;                                        /* bl, msr, mrs, dmb */
    else if (top >= 9 && top <= 19)
        i->cycles = 2;                                        /* ldr, str of all kinds */
    else if ((word & 0xFE00) == 0xB400)
        i->cycles = 1 + list + (word >> 8 & 1);               /* push */
    else if ((word & 0xFF00) == 0xBC00)
        i->cycles = 1 + list;                                 /* pop */
    else if ((word & 0xFF00) == 0xBD00)
        i->cycles = 4 + list;                                 /* pop with pc */
    else if ((word & 0xF000) == 0xC000)
        i->cycles = 1 + list;                                 /* ldm, stm */
    else if ((word & 0xF000) == 0xD000)
        i->if_taken = 2;                                      /* b on a condition: 1, taken 3 */
    else if (top == 28 || (word & 0xFF00) == 0x4700 || (word & 0xFD87) == 0x4487)
        i->cycles = 3;                                        /* b; bx, blx; add pc, mov pc */
}

static void spend(const struct instruction *i, unsigned n)
{
    cycles += n;
    if (i->address < FLASH)
        spent[i->address / 2] += n;
}

static void executed(unsigned cpu, void *data)
{
    const struct instruction *i = data;
    (void)cpu;
    if (running && before->next != i->address)
        spend(before, before->if_taken);
    if (running && i->address == stop) {
        char line[100];
        running = 0;
        snprintf(line, sizeof line, "%" PRIu64 " instructions, %" PRIu64 " cycles\n", count, cycles);
        qemu_plugin_outs(line);
        if (cycles > most) {
            most = cycles;
            memcpy(spent_most, spent, sizeof spent);
        }
    } else if (!running && i->address == start) {
        running = 1;
        count = cycles = 0;
        memset(spent, 0, sizeof spent);
    }
    if (running) {
        count++;
        spend(i, i->cycles);
    }
    before = i;
}

static void translated(id plugin, struct qemu_plugin_tb *block)
{
    (void)plugin;
    for (size_t k = 0; k < qemu_plugin_tb_n_insns(block); k++) {
        struct qemu_plugin_insn *x = qemu_plugin_tb_get_insn(block, k);
        const unsigned char *bytes = qemu_plugin_insn_data(x);
        struct instruction *i = malloc(sizeof *i);
        i->address = qemu_plugin_insn_vaddr(x);
        model(i, bytes[0] | bytes[1] << 8);
        qemu_plugin_register_vcpu_insn_exec_cb(x, executed, 0, i);
    }
}

static void ended(id plugin, void *data)
{
    (void)plugin, (void)data;
    FILE *out = profile ? fopen(profile, "w") : NULL;
    for (unsigned i = 0; out && i < FLASH / 2; i++)
        if (spent_most[i])
            fprintf(out, "%u %" PRIu64 "\n", 2 * i, spent_most[i]);
    if (out)
        fclose(out);
}

__attribute__((visibility("default"))) int qemu_plugin_install(id plugin, const void *info, int words, char **word)
{
    (void)info;
    for (int i = 0; i < words; i++) {
        if (!strncmp(word[i], "start=", 6))
            start = strtoull(word[i] + 6, 0, 0);
        if (!strncmp(word[i], "stop=", 5))
            stop = strtoull(word[i] + 5, 0, 0);
        if (!strncmp(word[i], "profile=", 8))
            profile = strdup(word[i] + 8);
    }
    qemu_plugin_register_vcpu_tb_trans_cb(plugin, translated);
    qemu_plugin_register_atexit_cb(plugin, ended, 0);
    return 0;
}
