/*
 * A plugin for qemu that counts the instructions that a program runs, and writes "mark N" to standard error each time the
 * one at an address is reached:
 *   cc -shared -fPIC -O2 instructions.c -o instructions.so; qemu-system-arm -plugin ./instructions.so,mark=0x1234 ...
 * Debian's qemu comes without its header, so what is used of it is declared here (plugin version 1).
 */
#include <stdint.h>
#include <stdio.h>
#include <stdlib.h>
#include <string.h>

struct qemu_plugin_tb;
struct qemu_plugin_insn;

extern size_t qemu_plugin_tb_n_insns(const struct qemu_plugin_tb *block);
extern struct qemu_plugin_insn *qemu_plugin_tb_get_insn(const struct qemu_plugin_tb *block, size_t index);
extern uint64_t qemu_plugin_insn_vaddr(const struct qemu_plugin_insn *instruction);
extern void qemu_plugin_register_vcpu_insn_exec_inline(struct qemu_plugin_insn *instruction, int operation, void *at,
                                                       uint64_t number);
extern void qemu_plugin_register_vcpu_insn_exec_cb(struct qemu_plugin_insn *instruction,
                                                   void (*call)(unsigned processor, void *data), int flags, void *data);
extern void qemu_plugin_register_vcpu_tb_trans_cb(uint64_t id, void (*call)(uint64_t id, struct qemu_plugin_tb *block));

enum { ADD = 0, NO_REGISTERS = 0 };

__attribute__((visibility("default"))) int qemu_plugin_version = 1;

static uint64_t count;
static uint64_t mark;

static void reached(unsigned processor, void *data)
{
    (void)processor;
    (void)data;
    fprintf(stderr, "mark %llu\n", (unsigned long long)count);
}

/* each instruction by itself: a block may be left before its end */
static void translated(uint64_t id, struct qemu_plugin_tb *block)
{
    (void)id;
    for (size_t i = 0; i < qemu_plugin_tb_n_insns(block); i++) {
        struct qemu_plugin_insn *instruction = qemu_plugin_tb_get_insn(block, i);
        qemu_plugin_register_vcpu_insn_exec_inline(instruction, ADD, &count, 1);
        if (qemu_plugin_insn_vaddr(instruction) == mark)
            qemu_plugin_register_vcpu_insn_exec_cb(instruction, reached, NO_REGISTERS, NULL);
    }
}

__attribute__((visibility("default"))) int qemu_plugin_install(uint64_t id, const void *info, int words, char **word)
{
    (void)info;
    if (words != 1 || strncmp(word[0], "mark=", 5) != 0)
        return 1;
    mark = strtoull(word[0] + 5, NULL, 0);
    qemu_plugin_register_vcpu_tb_trans_cb(id, translated);
    return 0;
}
