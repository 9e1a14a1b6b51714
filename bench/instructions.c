/* For the emulator QEMU: counts the instructions that a program executes, and prints the number at its end. What is declared here is what QEMU offers to such a part of it. */
#include <inttypes.h>
#include <stddef.h>
#include <stdint.h>
#include <stdio.h>

#define SHOWN __attribute__((visibility("default")))

enum { ADD = 0 };

struct qemu_plugin_tb;

typedef void Translated(uint64_t id, struct qemu_plugin_tb *block);
typedef void Ended(uint64_t id, void *data);

void qemu_plugin_register_vcpu_tb_trans_cb(uint64_t id, Translated *translated);
void qemu_plugin_register_vcpu_tb_exec_inline(struct qemu_plugin_tb *block, int operation, void *number, uint64_t by);
void qemu_plugin_register_atexit_cb(uint64_t id, Ended *ended, void *data);
size_t qemu_plugin_tb_n_insns(const struct qemu_plugin_tb *block);

SHOWN int qemu_plugin_version = 1;

static uint64_t instructions;

/* Whenever this block of instructions runs, the number goes up by as many as it has. */
static void translated(uint64_t id, struct qemu_plugin_tb *block) {
    (void)id;
    qemu_plugin_register_vcpu_tb_exec_inline(block, ADD, &instructions, qemu_plugin_tb_n_insns(block));
}

static void ended(uint64_t id, void *data) {
    (void)id;
    (void)data;
    fprintf(stderr, "%" PRIu64 "\n", instructions);
}

SHOWN int qemu_plugin_install(uint64_t id, const void *info, int argc, char **argv) {
    (void)info;
    (void)argc;
    (void)argv;
    qemu_plugin_register_vcpu_tb_trans_cb(id, translated);
    qemu_plugin_register_atexit_cb(id, ended, NULL);
    return 0;
}
