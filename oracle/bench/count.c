/*
 * Counts the instructions that a program for x86-64 executes under Debian's qemu-user, for a machine that is no x86-64 one: a plugin of the
 * emulator, which prints the number on descriptor 2 at the end, as callgrind does. A block of instructions counts when it is entered.
 *
 *     cc -O2 -shared -fPIC -o count.so count.c
 *     qemu-x86_64 -plugin ./count.so PROGRAM
 *
 * The declarations are those of the emulator's plugin interface, version 1.
 */
#include <inttypes.h>
#include <stddef.h>
#include <stdio.h>

typedef uint64_t plugin_id;
struct block;
struct machine;

extern void qemu_plugin_register_vcpu_tb_trans_cb(plugin_id, void (*)(plugin_id, struct block *));
extern void qemu_plugin_register_vcpu_tb_exec_inline(struct block *, int add_u64, void *to, uint64_t amount);
extern size_t qemu_plugin_tb_n_insns(const struct block *);
extern void qemu_plugin_register_atexit_cb(plugin_id, void (*)(plugin_id, void *), void *);

int qemu_plugin_version = 1;

static uint64_t executed;

static void on_block(plugin_id id, struct block *block) {
    (void)id;
    qemu_plugin_register_vcpu_tb_exec_inline(block, 0, &executed, qemu_plugin_tb_n_insns(block));
}

static void at_end(plugin_id id, void *unused) {
    (void)id;
    (void)unused;
    fprintf(stderr, "Collected : %" PRIu64 "\n", executed);
}

int qemu_plugin_install(plugin_id id, const struct machine *machine, int argc, char **argv) {
    (void)machine;
    (void)argc;
    (void)argv;
    qemu_plugin_register_vcpu_tb_trans_cb(id, on_block);
    qemu_plugin_register_atexit_cb(id, at_end, NULL);
    return 0;
}
