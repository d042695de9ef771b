/* A plugin for QEMU (interface 1, QEMU 6.1 to 8.2) that counts every instruction of an emulated program by the function that it belongs to. The
   functions come from a file, `map=FILE`: one line each with its address in hexadecimal, a part and a name, by rising address. Functions of the part
   `helper` (64-bit division, setting bytes) are counted for whoever called them: for the function of another part that ran last. To the log that
   `-d plugin -D FILE` names go a line for each pair that ran, `function COUNT PART NAME HELPER`, where HELPER is `-` for the function's own
   instructions, and one for each call of the library, `call NAME TIMES COUNT MOST`: how often it was made, the instructions of the part `calculation`
   in all of them, and in the longest one. With `each=on` there is a line for every call too, `each NAME COUNT`, in the order in which they were made.
   The interface is declared here by hand, so that no header of QEMU is needed. */
#include <stdbool.h>
#include <stddef.h>
#include <stdint.h>
#include <stdio.h>
#include <string.h>

struct qemu_plugin_tb;
struct qemu_plugin_insn;
#define API __attribute__((visibility("default"))) extern
API void qemu_plugin_register_vcpu_tb_trans_cb(uint64_t id, void (*done)(uint64_t, struct qemu_plugin_tb *));
API void qemu_plugin_register_vcpu_insn_exec_cb(struct qemu_plugin_insn *, void (*done)(unsigned, void *), int registers, void *);
API void qemu_plugin_register_atexit_cb(uint64_t id, void (*done)(uint64_t, void *), void *);
API size_t qemu_plugin_tb_n_insns(const struct qemu_plugin_tb *);
API struct qemu_plugin_insn *qemu_plugin_tb_get_insn(const struct qemu_plugin_tb *, size_t);
API uint64_t qemu_plugin_insn_vaddr(const struct qemu_plugin_insn *);
API void qemu_plugin_outs(const char *);
__attribute__((visibility("default"))) int qemu_plugin_version = 1;

enum { MOST = 1024 };
static struct {
    uint64_t address;
    char part[16], name[80];
    bool helps, calculates, is_call;
    uint64_t times, all, most;
} functions[MOST];
static size_t known, last, made;
static uint64_t counts[MOST][MOST], in_call;
static bool each;

/* What was counted since the call that was made last began is that call's. */
static void end_call(void) {
    if (each && functions[made].is_call) {
        char line[120];
        snprintf(line, sizeof line, "each %s %llu\n", functions[made].name, (unsigned long long)in_call);
        qemu_plugin_outs(line);
    }
    functions[made].all += in_call;
    if (in_call > functions[made].most) functions[made].most = in_call;
    in_call = 0;
}

static void executed(unsigned cpu, void *which) {
    (void)cpu;
    size_t function = (size_t)which;
    if (!functions[function].helps) last = function;
    counts[last][function]++;
    in_call += functions[last].calculates;
}

static void called(unsigned cpu, void *which) {
    end_call();
    made = (size_t)which;
    functions[made].times++;
    executed(cpu, which);
}

static size_t function_at(uint64_t address) {
    size_t i = known - 1;
    while (i > 0 && functions[i].address > address) i--;
    return i;
}

static void translated(uint64_t id, struct qemu_plugin_tb *block) {
    (void)id;
    for (size_t i = 0; i < qemu_plugin_tb_n_insns(block); i++) {
        struct qemu_plugin_insn *instruction = qemu_plugin_tb_get_insn(block, i);
        uint64_t address = qemu_plugin_insn_vaddr(instruction);
        size_t function = function_at(address);
        bool begins = functions[function].is_call && functions[function].address == address;
        qemu_plugin_register_vcpu_insn_exec_cb(instruction, begins ? called : executed, 0, (void *)function);
    }
}

static void ended(uint64_t id, void *nothing) {
    (void)id, (void)nothing;
    char line[240];
    end_call();
    for (size_t i = 0; i < known; i++) {
        for (size_t j = 0; j < known; j++) {
            if (!counts[i][j]) continue;
            snprintf(line, sizeof line, "function %llu %s %s %s\n", (unsigned long long)counts[i][j], functions[i].part, functions[i].name,
                     i == j ? "-" : functions[j].name);
            qemu_plugin_outs(line);
        }
        if (!functions[i].is_call) continue;
        snprintf(line, sizeof line, "call %s %llu %llu %llu\n", functions[i].name, (unsigned long long)functions[i].times,
                 (unsigned long long)functions[i].all, (unsigned long long)functions[i].most);
        qemu_plugin_outs(line);
    }
}

/* The doors to C. */
static bool is_door(const char *name) { return !strncmp(name, "dullavane_", 10); }

__attribute__((visibility("default"))) int qemu_plugin_install(uint64_t id, const void *info, int argc, char **argv) {
    (void)info;
    FILE *map = argc >= 1 && !strncmp(argv[0], "map=", 4) ? fopen(argv[0] + 4, "r") : NULL;
    if (!map) return 1;
    each = argc == 2 && !strcmp(argv[1], "each=on");
    unsigned long long address;
    while (known < MOST && fscanf(map, "%llx %15s %79s", &address, functions[known].part, functions[known].name) == 3) {
        functions[known].address = address;
        functions[known].helps = !strcmp(functions[known].part, "helper");
        functions[known].calculates = !strcmp(functions[known].part, "calculation");
        functions[known].is_call = functions[known].calculates && is_door(functions[known].name);
        known++;
    }
    fclose(map);
    if (!known || known == MOST) return 1;
    qemu_plugin_register_vcpu_tb_trans_cb(id, translated);
    qemu_plugin_register_atexit_cb(id, ended, NULL);
    return 0;
}
