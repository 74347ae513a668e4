/* A plugin of qemu-user that counts executed instructions between marks: functions whose name starts with count_mark_.
   Into the file that the word out= names goes a line for each mark that another one followed: its name, and the instructions up to that one. */
#include <inttypes.h>
#include <stdint.h>
#include <stdio.h>
#include <stdlib.h>
#include <string.h>

/* The part of qemu-plugin.h that is used, so that the header need not be installed. */
typedef uint64_t plugin_id;
struct tb;
struct insn;
int qemu_plugin_version = VERSION;
extern void qemu_plugin_register_vcpu_tb_trans_cb(plugin_id, void (*)(plugin_id, struct tb *));
extern void qemu_plugin_register_vcpu_tb_exec_cb(struct tb *, void (*)(unsigned, void *), int, void *);
extern void qemu_plugin_register_vcpu_insn_exec_cb(struct insn *, void (*)(unsigned, void *), int, void *);
extern void qemu_plugin_register_atexit_cb(plugin_id, void (*)(plugin_id, void *), void *);
extern size_t qemu_plugin_tb_n_insns(const struct tb *);
extern struct insn *qemu_plugin_tb_get_insn(const struct tb *, size_t);
extern const char *qemu_plugin_insn_symbol(const struct insn *);
extern uint64_t qemu_plugin_insn_vaddr(const struct insn *);
extern size_t qemu_plugin_insn_size(const struct insn *);

#define PREFIX "count_mark_"
#define MARKS 8
#define PAGE 4096

static FILE *out;
static uint64_t total, since;
static const char *last;
static struct { const char *name; uint64_t entry; } marks[MARKS];
static unsigned known;

/* Where its first and its last instruction begin. */
struct block { uint64_t first, last; size_t count; int across; };

static const struct block *before;

/* With an instruction that lies across two pages qemu begins a block. It has counted it in the block before as well, as the last one there, which
   doesn't execute it. */
static void block_executed(unsigned cpu, void *data) {
    const struct block *block = data;
    total += block->count;
    if (block->across && before && before->count > 1 && before->last == block->first) total--;
    before = block;
}

static struct block *block_of(const struct tb *tb, size_t count) {
    struct block *block = malloc(sizeof *block);
    const struct insn *first = qemu_plugin_tb_get_insn(tb, 0);
    if (!block) { fprintf(stderr, "plugin: no memory\n"); exit(2); }
    block->first = qemu_plugin_insn_vaddr(first);
    block->last = qemu_plugin_insn_vaddr(qemu_plugin_tb_get_insn(tb, count - 1));
    block->count = count;
    block->across = block->first / PAGE != (block->first + qemu_plugin_insn_size(first) - 1) / PAGE;
    return block;
}

static void mark_executed(unsigned cpu, void *name) {
    if (last) fprintf(out, "%s %" PRIu64 "\n", last, total - since);
    last = name;
    since = total;
}

/* The first instruction of a mark that is ever met is its entry: it is reached by calls alone. */
static const char *mark_entered(const char *name, uint64_t at) {
    unsigned k = 0;
    while (k < known && strcmp(marks[k].name, name)) k++;
    if (k == MARKS) { fprintf(stderr, "plugin: more than %d marks\n", MARKS); exit(2); }
    if (k == known) { marks[k].name = strdup(name); marks[k].entry = at; known++; }
    return marks[k].entry == at ? marks[k].name : NULL;
}

static void translated(plugin_id id, struct tb *tb) {
    size_t count = qemu_plugin_tb_n_insns(tb);
    qemu_plugin_register_vcpu_tb_exec_cb(tb, block_executed, 0, block_of(tb, count));
    for (size_t k = 0; k < count; k++) {
        struct insn *insn = qemu_plugin_tb_get_insn(tb, k);
        const char *symbol = qemu_plugin_insn_symbol(insn);
        if (!symbol || strncmp(symbol, PREFIX, strlen(PREFIX))) continue;
        const char *name = mark_entered(symbol + strlen(PREFIX), qemu_plugin_insn_vaddr(insn));
        if (name) qemu_plugin_register_vcpu_insn_exec_cb(insn, mark_executed, 0, (void *)name);
    }
}

static void ended(plugin_id id, void *nothing) { fclose(out); }

int qemu_plugin_install(plugin_id id, const void *info, int argc, char **argv) {
    for (int k = 0; k < argc; k++)
        if (!strncmp(argv[k], "out=", 4)) out = fopen(argv[k] + 4, "w");
    if (!out) return 1;
    qemu_plugin_register_vcpu_tb_trans_cb(id, translated);
    qemu_plugin_register_atexit_cb(id, ended, NULL);
    return 0;
}
