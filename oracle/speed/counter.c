/* Counts a program's instructions as callgrind does with --toggle-collect, where that cannot run: a plugin for Debian 12's
   qemu-user (plugin API 1), for x86-64 programs on any machine. Counting is on while an odd number of the functions named
   by toggle= are running. At the end it writes what was counted within the functions named by image= and checks=, what was
   counted outside of the program's own code and not within checks=, which is the C library's copies, and all; with stack=on
   also the most stack that was in use while counting was on, in bytes: from the return address of the function down to where
   the stack pointer came, or to the lowest byte that was read or written, if that is lower.
   Declarations by hand: Debian ships no header. */
#include <stdint.h>
#include <stdio.h>
#include <stdlib.h>
#include <string.h>
struct tb;
struct insn;
extern void qemu_plugin_register_vcpu_tb_trans_cb(uint64_t id, void (*)(uint64_t id, struct tb *));
extern void qemu_plugin_register_vcpu_tb_exec_cb(struct tb *, void (*)(unsigned, void *), int flags, void *user);
extern void qemu_plugin_register_vcpu_insn_exec_cb(struct insn *, void (*)(unsigned, void *), int flags, void *user);
extern void qemu_plugin_register_vcpu_mem_cb(struct insn *, void (*)(unsigned, uint32_t, uint64_t, void *), int flags, int rw, void *user);
extern void qemu_plugin_register_atexit_cb(uint64_t id, void (*)(uint64_t id, void *), void *);
extern size_t qemu_plugin_tb_n_insns(const struct tb *);
extern struct insn *qemu_plugin_tb_get_insn(const struct tb *, size_t);
extern uint64_t qemu_plugin_insn_vaddr(const struct insn *);
extern const char *qemu_plugin_insn_symbol(const struct insn *);
extern const void *qemu_plugin_insn_data(const struct insn *);
extern size_t qemu_plugin_insn_size(const struct insn *);
int qemu_plugin_version = 1;

/* A function that is watched: where it begins, which is where it is first run, and how deep it is called, 0 where it is not running. */
enum { TOGGLE, IMAGE, CHECKS };
struct watched { const char *name; int role; uint64_t entry; int depth; };
static struct watched list[8];
static int watched;

/* A stretch of code that is run from its start to its end: its length, what its last instruction does to the depth of
   calls, whether it is the program's own, and the watched function that begins with it. */
struct block { unsigned length; int turn; int own; struct watched *begins; };

static int depth = 1, pending;
static uint64_t image, checks, copies, all;
static FILE *out;

/* The stack pointer, as what is pushed and popped tells it; where it stood when the function that is counted was called; and the
   most that was in use below that. An access further below than the system lets a stack grow is one of other memory. */
enum { READ_OR_WRITE = 3, STACK_AT_MOST = 8 << 20, RETURN_ADDRESS = 8 };
static int with_stack;
static uint64_t pointer, top, stack;

static int on(int role) {
    int n = 0;
    for (int i = 0; i < watched; i++) n += list[i].role == role && list[i].depth;
    return n;
}

static void begins_at(uint64_t caller) {
    top = caller;
    if (stack < RETURN_ADDRESS) stack = RETURN_ADDRESS;
}

static void run(unsigned vcpu, void *user) {
    struct block *b = user;
    depth += pending;
    pending = b->turn;
    for (int i = 0; i < watched; i++)
        if (list[i].depth > depth) list[i].depth = 0;
    if (b->begins && !b->begins->depth) {
        b->begins->depth = depth;
        if (b->begins->role == TOGGLE) begins_at(pointer + RETURN_ADDRESS);
    }
    if (on(TOGGLE) % 2 == 0) return;
    all += b->length;
    if (on(IMAGE)) image += b->length;
    if (on(CHECKS)) checks += b->length;
    else if (!b->own) copies += b->length;
}

static void reaches(uint64_t at) {
    if (on(TOGGLE) % 2 && at < top && top - at <= STACK_AT_MOST && top - at > stack) stack = top - at;
}

static void accessed(unsigned vcpu, uint32_t how, uint64_t at, void *user) { reaches(at); }

/* What is pushed is written after anything is read for it. */
static void pushed(unsigned vcpu, uint32_t how, uint64_t at, void *user) { reaches(pointer = at); }

static void popped(unsigned vcpu, uint32_t how, uint64_t at, void *user) { pointer = at + 8; }

static void moved(unsigned vcpu, void *by) { reaches(pointer += (intptr_t)by); }

/* An instruction past its prefixes, in a room where what it has not is 0. */
static const uint8_t *opcode(const struct insn *in, uint8_t room[32]) {
    size_t n = qemu_plugin_insn_size(in);
    memset(room, 0, 32);
    memcpy(room, qemu_plugin_insn_data(in), n < 16 ? n : 16);
    while (*room == 0xF2 || *room == 0xF3 || *room == 0x66 || *room == 0x3E || (*room & 0xF0) == 0x40) room++;
    return room;
}

/* What its second byte says besides. */
static int field(const uint8_t *at) { return at[1] >> 3 & 7; }

/* 1 for a call, -1 for a return */
static int turn_of(const struct insn *in) {
    uint8_t room[32];
    const uint8_t *at = opcode(in, room);
    if (*at == 0xC3 || *at == 0xC2) return -1;
    return *at == 0xE8 || (*at == 0xFF && field(at) == 2);
}

/* How many bytes an instruction adds to the stack pointer, fewer than 0 where it takes some, and 0 where it does neither. */
static intptr_t step_of(const struct insn *in) {
    uint8_t room[32];
    const uint8_t *at = opcode(in, room);
    int32_t wide;
    memcpy(&wide, at + 2, 4);
    intptr_t by = at[0] == 0x83 ? (int8_t)at[2] : wide;
    if ((at[0] != 0x83 && at[0] != 0x81) || (at[1] & 0xC7) != 0xC4) return 0;
    if (at > room && (at[-1] & 0xF1) == 0x41) return 0; /* the prefix makes another register of it */
    return field(at) == 5 ? -by : field(at) == 0 ? by : 0;
}

static void follow_stack(struct insn *in) {
    uint8_t room[32];
    const uint8_t *at = opcode(in, room);
    int push = (*at & 0xF8) == 0x50 || *at == 0x68 || *at == 0x6A || (*at == 0xFF && field(at) == 6) || turn_of(in) == 1;
    int pop = (*at & 0xF8) == 0x58 || *at == 0xC9 || turn_of(in) == -1;
    intptr_t by = step_of(in);
    if (by) qemu_plugin_register_vcpu_insn_exec_cb(in, moved, 0, (void *)by);
    qemu_plugin_register_vcpu_mem_cb(in, push ? pushed : pop ? popped : accessed, 0, READ_OR_WRITE, NULL);
}

static void translated(uint64_t id, struct tb *tb) {
    size_t n = qemu_plugin_tb_n_insns(tb);
    struct insn *first = qemu_plugin_tb_get_insn(tb, 0);
    const char *symbol = qemu_plugin_insn_symbol(first);
    struct block *b = calloc(1, sizeof *b);
    b->length = n;
    b->turn = turn_of(qemu_plugin_tb_get_insn(tb, n - 1));
    b->own = symbol != NULL;
    for (int i = 0; i < watched && symbol; i++)
        if (!strcmp(symbol, list[i].name)) {
            uint64_t at = qemu_plugin_insn_vaddr(first);
            if (!list[i].entry) list[i].entry = at;
            if (list[i].entry == at) b->begins = &list[i];
        }
    qemu_plugin_register_vcpu_tb_exec_cb(tb, run, 0, b);
    for (size_t i = 0; i < n && with_stack; i++) follow_stack(qemu_plugin_tb_get_insn(tb, i));
}

static void done(uint64_t id, void *user) {
    fprintf(out, "%llu %llu %llu %llu", (unsigned long long)image, (unsigned long long)checks, (unsigned long long)copies, (unsigned long long)all);
    if (with_stack) fprintf(out, " %llu", (unsigned long long)stack);
    fprintf(out, "\n");
    fclose(out);
}

static int watch(const char *word, const char *key, int role) {
    size_t n = strlen(key);
    if (strncmp(word, key, n) || watched == 8) return 0;
    list[watched++] = (struct watched){strdup(word + n), role, 0, 0};
    return 1;
}

int qemu_plugin_install(uint64_t id, const void *info, int argc, char **argv) {
    out = NULL;
    for (int i = 0; i < argc; i++) {
        if (!strncmp(argv[i], "out=", 4)) out = fopen(argv[i] + 4, "w");
        else if (!strcmp(argv[i], "stack=on")) with_stack = 1;
        else if (!watch(argv[i], "toggle=", TOGGLE) && !watch(argv[i], "image=", IMAGE) && !watch(argv[i], "checks=", CHECKS)) return 1;
    }
    if (!out) return 1;
    qemu_plugin_register_vcpu_tb_trans_cb(id, translated);
    qemu_plugin_register_atexit_cb(id, done, NULL);
    return 0;
}
