/*
 * Counts the instructions that a program executes: a plug-in for qemu-x86_64 (Debian's package qemu-user, qemu 7.2).
 * The count is the same at every run, on any machine. Each turn of a `rep` instruction counts as one.
 *
 *     gcc -O2 -shared -fPIC -o insn.so insn.c
 *     qemu-x86_64 -plugin ./insn.so PROGRAM
 *
 * At the program's end it writes `insns N` to standard error.
 *
 * It counts instruction by instruction. To add the length of each block instead is quicker and not exact: where qemu
 * ends a block before an instruction that crosses into the next page, the length has that instruction too.
 *
 * The declarations are those of qemu's qemu-plugin.h, which Debian does not ship; qemu itself brings the functions.
 */
#include <inttypes.h>
#include <stddef.h>
#include <stdint.h>
#include <stdio.h>

typedef uint64_t qemu_plugin_id_t;
struct qemu_plugin_tb; /* a block: instructions that are executed one after another */
struct qemu_plugin_insn;
struct qemu_info;
enum qemu_plugin_op { QEMU_PLUGIN_INLINE_ADD_U64 };
typedef void (*block_translated)(qemu_plugin_id_t id, struct qemu_plugin_tb *block);
typedef void (*program_ended)(qemu_plugin_id_t id, void *data);

size_t qemu_plugin_tb_n_insns(const struct qemu_plugin_tb *block);
struct qemu_plugin_insn *qemu_plugin_tb_get_insn(const struct qemu_plugin_tb *block, size_t place);
void qemu_plugin_register_vcpu_tb_trans_cb(qemu_plugin_id_t id, block_translated call);
void qemu_plugin_register_vcpu_insn_exec_inline(struct qemu_plugin_insn *insn, enum qemu_plugin_op op, void *word,
                                                uint64_t number);
void qemu_plugin_register_atexit_cb(qemu_plugin_id_t id, program_ended call, void *data);

#define SHOWN __attribute__((visibility("default")))

SHOWN int qemu_plugin_version = 1;

static uint64_t count;

/* Whenever one of the block's instructions is executed, 1 is added. */
static void translated(qemu_plugin_id_t id, struct qemu_plugin_tb *block)
{
    size_t place, length = qemu_plugin_tb_n_insns(block);

    (void)id;
    for (place = 0; place < length; place++) {
        qemu_plugin_register_vcpu_insn_exec_inline(qemu_plugin_tb_get_insn(block, place), QEMU_PLUGIN_INLINE_ADD_U64,
                                                   &count, 1);
    }
}

static void ended(qemu_plugin_id_t id, void *data)
{
    (void)id;
    (void)data;
    fprintf(stderr, "insns %" PRIu64 "\n", count);
}

SHOWN int qemu_plugin_install(qemu_plugin_id_t id, const struct qemu_info *info, int argc, char **argv)
{
    (void)info;
    (void)argc;
    (void)argv;
    qemu_plugin_register_vcpu_tb_trans_cb(id, translated);
    qemu_plugin_register_atexit_cb(id, ended, NULL);
    return 0;
}
