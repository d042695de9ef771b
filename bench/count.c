/* A plugin for QEMU's user mode (interface 1, QEMU 6.1 to 8.2) that counts what a program executes from the first instruction of
   `main` on: instructions in all, those of the program's own code (the rest is the C library's), and the bytes of stack that are
   touched below the return address of `main`. Printed when the program ends, on the log that `-d plugin -D FILE` names.
   The interface is declared here by hand, so that no header of QEMU is needed. */
#include <stdbool.h>
#include <stddef.h>
#include <stdint.h>
#include <stdio.h>
#include <string.h>

typedef uint64_t plugin_id;
struct qemu_plugin_tb;
struct qemu_plugin_insn;
enum { NO_REGISTERS = 0, READS_AND_WRITES = 3, ADD_U64 = 0 };
#define API __attribute__((visibility("default"))) extern

API void qemu_plugin_register_vcpu_tb_trans_cb(plugin_id id, void (*done)(plugin_id, struct qemu_plugin_tb *));
API void qemu_plugin_register_vcpu_insn_exec_cb(struct qemu_plugin_insn *, void (*done)(unsigned, void *), int registers, void *);
API void qemu_plugin_register_vcpu_insn_exec_inline(struct qemu_plugin_insn *, int op, void *counter, uint64_t by);
API void qemu_plugin_register_vcpu_mem_cb(struct qemu_plugin_insn *, void (*done)(unsigned, uint32_t, uint64_t, void *), int registers, int rw, void *);
API void qemu_plugin_register_atexit_cb(plugin_id id, void (*done)(plugin_id, void *), void *);
API size_t qemu_plugin_tb_n_insns(const struct qemu_plugin_tb *);
API struct qemu_plugin_insn *qemu_plugin_tb_get_insn(const struct qemu_plugin_tb *, size_t);
API uint64_t qemu_plugin_insn_vaddr(const struct qemu_plugin_insn *);
API const char *qemu_plugin_insn_symbol(const struct qemu_plugin_insn *);
API uint64_t qemu_plugin_start_code(void);
API uint64_t qemu_plugin_end_code(void);
API void qemu_plugin_outs(const char *);

__attribute__((visibility("default"))) int qemu_plugin_version = 1;

enum { STACK_LIMIT = 8 << 20 };
static uint64_t all, own, before_all, before_own, last_address, top, lowest;
static bool in_main, main_seen;

static void main_begins(unsigned cpu, void *nothing) {
    (void)cpu, (void)nothing;
    if (in_main) return;
    in_main = true;
    /* This instruction of main is counted already. */
    before_all = all - 1;
    before_own = own - 1;
    /* The call has just put the return address there. */
    top = lowest = last_address;
}

static void touched(unsigned cpu, uint32_t how, uint64_t address, void *nothing) {
    (void)cpu, (void)how, (void)nothing;
    last_address = address;
    if (in_main && address < lowest && top - address < STACK_LIMIT) lowest = address;
}

static void translated(plugin_id id, struct qemu_plugin_tb *block) {
    (void)id;
    uint64_t start = qemu_plugin_start_code(), end = qemu_plugin_end_code();
    for (size_t i = 0; i < qemu_plugin_tb_n_insns(block); i++) {
        struct qemu_plugin_insn *instruction = qemu_plugin_tb_get_insn(block, i);
        uint64_t address = qemu_plugin_insn_vaddr(instruction);
        bool is_own = start <= address && address < end;
        qemu_plugin_register_vcpu_insn_exec_inline(instruction, ADD_U64, &all, 1);
        if (is_own) qemu_plugin_register_vcpu_insn_exec_inline(instruction, ADD_U64, &own, 1);
        qemu_plugin_register_vcpu_mem_cb(instruction, touched, NO_REGISTERS, READS_AND_WRITES, NULL);
        const char *name = is_own && !main_seen ? qemu_plugin_insn_symbol(instruction) : NULL;
        if (name && !strcmp(name, "main")) {
            main_seen = true;
            qemu_plugin_register_vcpu_insn_exec_cb(instruction, main_begins, NO_REGISTERS, NULL);
        }
    }
}

static void ended(plugin_id id, void *nothing) {
    (void)id, (void)nothing;
    char line[120];
    snprintf(line, sizeof line, "%s %llu %llu %llu\n", in_main ? "counted" : "no main", (unsigned long long)(all - before_all),
             (unsigned long long)(own - before_own), (unsigned long long)(top - lowest));
    qemu_plugin_outs(line);
}

__attribute__((visibility("default"))) int qemu_plugin_install(plugin_id id, const void *info, int argc, char **argv) {
    (void)info, (void)argc, (void)argv;
    qemu_plugin_register_vcpu_tb_trans_cb(id, translated);
    qemu_plugin_register_atexit_cb(id, ended, NULL);
    return 0;
}
