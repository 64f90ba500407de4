/* A QEMU plugin that counts the instructions that a program executes and prints the number on standard error when it ends.
   The plugin's interface is declared here, because Debian's package has no header for it. */
#include <stddef.h>
#include <stdint.h>
#include <stdio.h>

typedef uint64_t plugin_id;
struct qemu_plugin_tb;
struct qemu_info_t;
enum flags { NO_REGISTERS };

extern void qemu_plugin_register_vcpu_tb_trans_cb(plugin_id, void (*)(plugin_id, struct qemu_plugin_tb *));
extern void qemu_plugin_register_vcpu_tb_exec_cb(struct qemu_plugin_tb *, void (*)(unsigned, void *), enum flags, void *);
extern size_t qemu_plugin_tb_n_insns(const struct qemu_plugin_tb *);
extern void qemu_plugin_register_atexit_cb(plugin_id, void (*)(plugin_id, void *), void *);

#define SEEN __attribute__((visibility("default")))

SEEN int qemu_plugin_version = INTERFACE;

static uint64_t total;

static void executed(unsigned cpu, void *instructions) { total += (uintptr_t)instructions; }

static void translated(plugin_id id, struct qemu_plugin_tb *block)
{
	uintptr_t instructions = qemu_plugin_tb_n_insns(block);
	qemu_plugin_register_vcpu_tb_exec_cb(block, executed, NO_REGISTERS, (void *)instructions);
}

static void ended(plugin_id id, void *nothing) { fprintf(stderr, "%llu\n", (unsigned long long)total); }

SEEN int qemu_plugin_install(plugin_id id, const struct qemu_info_t *info, int argc, char **argv)
{
	qemu_plugin_register_vcpu_tb_trans_cb(id, translated);
	qemu_plugin_register_atexit_cb(id, ended, NULL);
	return 0;
}
