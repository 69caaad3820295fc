// Counts the instructions of an emulated program, for tests/bench: a plugin of Debian's emulator, whose header is in no package, so that the few names of it stand here.
#include <inttypes.h>
#include <stdbool.h>
#include <stdio.h>
#include <stdlib.h>

typedef uint64_t qemu_plugin_id_t;
struct qemu_plugin_tb;
typedef void (*on_block)(qemu_plugin_id_t, struct qemu_plugin_tb *);
typedef void (*on_end)(qemu_plugin_id_t, void *);
extern size_t qemu_plugin_tb_n_insns(const struct qemu_plugin_tb *);
extern uint64_t qemu_plugin_tb_vaddr(const struct qemu_plugin_tb *);
extern void qemu_plugin_register_vcpu_tb_trans_cb(qemu_plugin_id_t, on_block);
extern void qemu_plugin_register_vcpu_tb_exec_inline(struct qemu_plugin_tb *, int add, void *counter, uint64_t step);
extern void qemu_plugin_register_atexit_cb(qemu_plugin_id_t, on_end, void *);

int qemu_plugin_version = 1;

// Each block as often as it was translated: where it lies, and the instructions done in it.
struct block {
    uint64_t at, done;
    struct block *before;
};
static struct block *blocks;

static void counted(qemu_plugin_id_t id, struct qemu_plugin_tb *tb)
{
    struct block *block = calloc(1, sizeof *block);
    if (!block)
        abort();
    block->at = qemu_plugin_tb_vaddr(tb);
    block->before = blocks;
    blocks = block;
    qemu_plugin_register_vcpu_tb_exec_inline(tb, 0, &block->done, qemu_plugin_tb_n_insns(tb));
    (void)id;
}

static void told(qemu_plugin_id_t id, void *path)
{
    FILE *file = fopen(path, "w");
    if (!file)
        abort();
    for (struct block *block = blocks; block; block = block->before)
        if (block->done)
            fprintf(file, "%" PRIx64 " %" PRIu64 "\n", block->at, block->done);
    fclose(file);
    (void)id;
}

int qemu_plugin_install(qemu_plugin_id_t id, const void *info, int count, char **words)
{
    if (count != 1)
        return 1;
    qemu_plugin_register_vcpu_tb_trans_cb(id, counted);
    // a word is `to=FILE`
    qemu_plugin_register_atexit_cb(id, told, words[0] + 3);
    (void)info;
    return 0;
}
