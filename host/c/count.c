/*
 * A plugin for the emulator that counts the instructions of the program which it
 * runs, and says how many there were when it ends. What it takes of the
 * emulator's interface, version 1, is declared here.
 */
#include <stddef.h>
#include <stdint.h>
#include <stdio.h>

struct qemu_plugin_tb;
typedef uint64_t plugin;

extern void qemu_plugin_register_vcpu_tb_trans_cb(plugin id, void (*act)(plugin id, struct qemu_plugin_tb *block));
extern void qemu_plugin_register_vcpu_tb_exec_inline(struct qemu_plugin_tb *block, int add, void *to, uint64_t number);
extern void qemu_plugin_register_atexit_cb(plugin id, void (*act)(plugin id, void *data), void *data);
extern size_t qemu_plugin_tb_n_insns(const struct qemu_plugin_tb *block);
extern void qemu_plugin_outs(const char *text);

int qemu_plugin_version = 1;

static uint64_t count;

static void translated(plugin id, struct qemu_plugin_tb *block)
{
    (void)id;
    qemu_plugin_register_vcpu_tb_exec_inline(block, 0, &count, qemu_plugin_tb_n_insns(block));
}

static void ended(plugin id, void *data)
{
    char text[32];

    (void)id;
    (void)data;
    snprintf(text, sizeof text, "%llu\n", (unsigned long long)count);
    qemu_plugin_outs(text);
}

int qemu_plugin_install(plugin id, const void *info, int argc, char **argv)
{
    (void)info;
    (void)argc;
    (void)argv;
    qemu_plugin_register_vcpu_tb_trans_cb(id, translated);
    qemu_plugin_register_atexit_cb(id, ended, NULL);
    return 0;
}
