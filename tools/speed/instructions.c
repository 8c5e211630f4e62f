/*
 * A plugin of qemu's user emulation: counts the instructions that a program takes, by function. At the end it prints,
 * on standard error, a line 'instructions NUMBER FUNCTION' for each.
 *
 * It is compiled for the processor at hand, whatever that of the program is:
 *   cc -shared -fPIC -DPLUGIN_VERSION=1 -o instructions.so instructions.c
 *   qemu-x86_64 -plugin ./instructions.so PROGRAM
 * PLUGIN_VERSION is the version of the interface, which depends on that of qemu: counter finds out which.
 */
#include <inttypes.h>
#include <stdio.h>
#include <stdlib.h>
#include <string.h>

/* What is used of qemu-plugin.h, which no package of Debian has. qemu 7.2 and 10.0 both have these functions. */
struct qemu_plugin_tb;
struct qemu_plugin_insn;
typedef void on_block(uint64_t id, struct qemu_plugin_tb *block);
typedef void on_run(unsigned cpu, void *data);
typedef void on_end(uint64_t id, void *data);
enum { NO_REGISTERS = 0 };
void qemu_plugin_register_vcpu_tb_trans_cb(uint64_t id, on_block *call);
void qemu_plugin_register_vcpu_insn_exec_cb(struct qemu_plugin_insn *one, on_run *call, int registers, void *data);
void qemu_plugin_register_atexit_cb(uint64_t id, on_end *call, void *data);
size_t qemu_plugin_tb_n_insns(const struct qemu_plugin_tb *block);
struct qemu_plugin_insn *qemu_plugin_tb_get_insn(const struct qemu_plugin_tb *block, size_t place);
const char *qemu_plugin_insn_symbol(const struct qemu_plugin_insn *one);

/* What qemu looks for in a plugin. */
int qemu_plugin_version = PLUGIN_VERSION;
int qemu_plugin_install(uint64_t id, const void *about, int count, char **words);

/* A function of the program, and the instructions that were taken in it. */
struct function {
    char *name;
    uint64_t taken;
    struct function *next;
};
static struct function *functions;

/* Memory that is never given back; the program ends where there is none. */
static void *room(size_t size)
{
    void *memory = calloc(1, size);
    if (memory == NULL)
        abort();
    return memory;
}

/* The function of a name. */
static struct function *function_of(const char *name)
{
    if (name == NULL)
        name = "?";
    for (struct function *one = functions; one != NULL; one = one->next)
        if (strcmp(one->name, name) == 0)
            return one;
    struct function *one = room(sizeof *one);
    one->name = strcpy(room(strlen(name) + 1), name);
    one->next = functions;
    return functions = one;
}

/* An instruction of a function is taken. */
static void taken(unsigned cpu, void *data)
{
    struct function *function = data;
    (void)cpu;
    function->taken++;
}

/* A block of instructions is met for the first time. Each is counted by itself: qemu may drop a block's last one. */
static void found(uint64_t id, struct qemu_plugin_tb *block)
{
    (void)id;
    for (size_t i = 0; i < qemu_plugin_tb_n_insns(block); i++) {
        struct qemu_plugin_insn *one = qemu_plugin_tb_get_insn(block, i);
        struct function *function = function_of(qemu_plugin_insn_symbol(one));
        qemu_plugin_register_vcpu_insn_exec_cb(one, taken, NO_REGISTERS, function);
    }
}

/* The program has ended. */
static void ended(uint64_t id, void *data)
{
    (void)id, (void)data;
    for (struct function *one = functions; one != NULL; one = one->next)
        fprintf(stderr, "instructions %" PRIu64 " %s\n", one->taken, one->name);
}

int qemu_plugin_install(uint64_t id, const void *about, int count, char **words)
{
    (void)about, (void)count, (void)words;
    qemu_plugin_register_vcpu_tb_trans_cb(id, found);
    qemu_plugin_register_atexit_cb(id, ended, NULL);
    return 0;
}
