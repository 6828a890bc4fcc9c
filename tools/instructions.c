/* A plugin of the emulator: says at the end how many instructions the program ran in each function.
 * The declarations are those of qemu-plugin.h, version 1, for which Debian has no package. */
#include <inttypes.h>
#include <stdio.h>
#include <stdlib.h>
#include <string.h>

typedef uint64_t plugin_id;
struct qemu_plugin_tb;
struct qemu_plugin_insn;

enum { ADD_U64 = 0 };

void qemu_plugin_register_vcpu_tb_trans_cb(plugin_id id, void (*translated)(plugin_id, struct qemu_plugin_tb *));
void qemu_plugin_register_vcpu_tb_exec_inline(struct qemu_plugin_tb *block, int operation, void *at, uint64_t by);
void qemu_plugin_register_atexit_cb(plugin_id id, void (*ended)(plugin_id, void *), void *data);
size_t qemu_plugin_tb_n_insns(const struct qemu_plugin_tb *block);
struct qemu_plugin_insn *qemu_plugin_tb_get_insn(const struct qemu_plugin_tb *block, size_t index);
const char *qemu_plugin_insn_symbol(const struct qemu_plugin_insn *instruction);

int qemu_plugin_version = 1;

struct function {
    const char *name;
    uint64_t count;
    struct function *next;
};

static struct function *functions;

/* The emulator knows the names of the program itself, and none of the shared libraries. */
static struct function *function(const char *name) {
    if (!name || !*name)
        name = "libraries";
    for (struct function *known = functions; known; known = known->next)
        if (strcmp(known->name, name) == 0)
            return known;
    struct function *fresh = calloc(1, sizeof *fresh);
    if (!fresh)
        abort();
    *fresh = (struct function){.name = strdup(name), .next = functions};
    return functions = fresh;
}

/* Each run of a block of instructions counts as many as it has. */
static void translated(plugin_id id, struct qemu_plugin_tb *block) {
    (void)id;
    struct function *in = function(qemu_plugin_insn_symbol(qemu_plugin_tb_get_insn(block, 0)));
    qemu_plugin_register_vcpu_tb_exec_inline(block, ADD_U64, &in->count, qemu_plugin_tb_n_insns(block));
}

static void ended(plugin_id id, void *data) {
    (void)id;
    (void)data;
    for (struct function *each = functions; each; each = each->next)
        fprintf(stderr, "%" PRIu64 " %s\n", each->count, each->name);
}

int qemu_plugin_install(plugin_id id, const void *info, int argc, char **argv) {
    (void)info;
    (void)argc;
    (void)argv;
    qemu_plugin_register_vcpu_tb_trans_cb(id, translated);
    qemu_plugin_register_atexit_cb(id, ended, NULL);
    return 0;
}
