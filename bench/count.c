// A plugin of qemu-x86_64 that counts the instructions a program takes and says so at its end. The declarations are those of
// qemu-plugin.h, which no package installs.
#include <inttypes.h>
#include <stddef.h>
#include <stdio.h>

typedef uint64_t qemu_plugin_id_t;
struct qemu_plugin_tb;
enum { QEMU_PLUGIN_INLINE_ADD_U64 };

void qemu_plugin_register_vcpu_tb_trans_cb(qemu_plugin_id_t id, void (*each)(qemu_plugin_id_t id, struct qemu_plugin_tb *block));
size_t qemu_plugin_tb_n_insns(const struct qemu_plugin_tb *block);
void qemu_plugin_register_vcpu_tb_exec_inline(struct qemu_plugin_tb *block, int how, void *where, uint64_t number);
void qemu_plugin_register_atexit_cb(qemu_plugin_id_t id, void (*end)(qemu_plugin_id_t id, void *given), void *given);

int qemu_plugin_version = 1;
static uint64_t count;

static void each(qemu_plugin_id_t id, struct qemu_plugin_tb *block) {
    (void)id;
    qemu_plugin_register_vcpu_tb_exec_inline(block, QEMU_PLUGIN_INLINE_ADD_U64, &count, qemu_plugin_tb_n_insns(block));
}

static void end(qemu_plugin_id_t id, void *given) {
    (void)id, (void)given;
    fprintf(stderr, "instructions %" PRIu64 "\n", count);
}

int qemu_plugin_install(qemu_plugin_id_t id, const void *info, int words, char **given) {
    (void)info, (void)words, (void)given;
    qemu_plugin_register_vcpu_tb_trans_cb(id, each);
    qemu_plugin_register_atexit_cb(id, end, NULL);
    return 0;
}
