/* A plugin of qemu's user emulator that counts the x86-64 instructions a program executes, and writes the count to standard error at its end.
   Only what is used of the plugin interface is declared, so that no header of qemu's is needed. */
#include <stddef.h>
#include <stdint.h>
#include <stdio.h>

struct qemu_plugin_tb;
enum { ADD_TO_U64 = 0 };

extern size_t qemu_plugin_tb_n_insns(const struct qemu_plugin_tb *block);
extern void qemu_plugin_register_vcpu_tb_trans_cb(uint64_t id, void (*translated)(uint64_t, struct qemu_plugin_tb *));
extern void qemu_plugin_register_vcpu_tb_exec_inline(struct qemu_plugin_tb *block, int operation, void *number, uint64_t amount);
extern void qemu_plugin_register_atexit_cb(uint64_t id, void (*ended)(uint64_t, void *), void *own);

#define EXPORTED __attribute__((visibility("default")))

EXPORTED int qemu_plugin_version = 1;

static uint64_t executed;

/* Each time a translated block runs, its instructions are added. */
static void on_translated(uint64_t id, struct qemu_plugin_tb *block)
{
    (void)id;
    qemu_plugin_register_vcpu_tb_exec_inline(block, ADD_TO_U64, &executed, qemu_plugin_tb_n_insns(block));
}

static void on_end(uint64_t id, void *own)
{
    (void)id;
    (void)own;
    fprintf(stderr, "instructions %llu\n", (unsigned long long)executed);
}

EXPORTED int qemu_plugin_install(uint64_t id, const void *about, int argc, char **argv)
{
    (void)about;
    (void)argc;
    (void)argv;
    qemu_plugin_register_vcpu_tb_trans_cb(id, on_translated);
    qemu_plugin_register_atexit_cb(id, on_end, NULL);
    return 0;
}
