/* A plugin of qemu's that prints, at each look of a program at the clock, how many instructions it has run. Debian
   has no header of such plugins, so what is called of qemu is declared here. */
#include <inttypes.h>
#include <stdio.h>

typedef uint64_t u64;
void qemu_plugin_register_vcpu_tb_trans_cb(u64 id, void (*)(u64 id, void *block));
void qemu_plugin_register_vcpu_syscall_cb(u64 id, void (*)(u64 id, unsigned int cpu, int64_t number, u64, u64, u64, u64,
                                                           u64, u64, u64, u64));
size_t qemu_plugin_tb_n_insns(const void *block);
void *qemu_plugin_tb_get_insn(const void *block, size_t);
void qemu_plugin_register_vcpu_insn_exec_inline(void *instruction, int add, void *to, u64 term);

int qemu_plugin_version = 1;
static u64 instructions;

static void translated(u64 id, void *block)
{
    (void)id;
    for (size_t i = 0; i < qemu_plugin_tb_n_insns(block); i++)
        qemu_plugin_register_vcpu_insn_exec_inline(qemu_plugin_tb_get_insn(block, i), 0, &instructions, 1);
}

static void called(u64 id, unsigned int cpu, int64_t number, u64 a, u64 b, u64 c, u64 d, u64 e, u64 f, u64 g, u64 h)
{
    (void)id, (void)cpu, (void)a, (void)b, (void)c, (void)d, (void)e, (void)f, (void)g, (void)h;
    /* clock_gettime: 228 on x86-64, 113 on aarch64. */
    if (number == 228 || number == 113)
        fprintf(stderr, "count %" PRIu64 "\n", instructions);
}

int qemu_plugin_install(u64 id)
{
    qemu_plugin_register_vcpu_tb_trans_cb(id, translated);
    qemu_plugin_register_vcpu_syscall_cb(id, called);
    return 0;
}
