/* A plugin of qemu (API version 1, declared here because Debian ships no qemu-plugin.h).
   Counts guest instructions executed between the functions at begin=ADDR and end=ADDR (first instruction of
   each); appends one decimal count per pair to out=FILE.  The count includes rig_begin's own instructions after
   its first, fn's, and those up to rig_end's first: the rig subtracts what an empty function gives. */
#include <stdint.h>
#include <stdio.h>
#include <stdlib.h>
#include <string.h>
typedef uint64_t qemu_plugin_id_t;
struct qemu_plugin_tb; struct qemu_plugin_insn;
typedef void (*tb_trans_cb)(qemu_plugin_id_t, struct qemu_plugin_tb *);
typedef void (*udata_cb)(unsigned int vcpu, void *udata);
typedef void (*atexit_cb)(qemu_plugin_id_t, void *);
enum { CB_NO_REGS = 0 }; enum { INLINE_ADD_U64 = 0 };
void qemu_plugin_register_vcpu_tb_trans_cb(qemu_plugin_id_t, tb_trans_cb);
size_t qemu_plugin_tb_n_insns(const struct qemu_plugin_tb *);
struct qemu_plugin_insn *qemu_plugin_tb_get_insn(const struct qemu_plugin_tb *, size_t);
uint64_t qemu_plugin_insn_vaddr(const struct qemu_plugin_insn *);
void qemu_plugin_register_vcpu_insn_exec_cb(struct qemu_plugin_insn *, udata_cb, int flags, void *);
void qemu_plugin_register_vcpu_insn_exec_inline(struct qemu_plugin_insn *, int op, void *ptr, uint64_t imm);
void qemu_plugin_register_atexit_cb(qemu_plugin_id_t, atexit_cb, void *);
__attribute__((visibility("default"))) int qemu_plugin_version = 1;
const void *qemu_plugin_insn_data(const struct qemu_plugin_insn *);
size_t qemu_plugin_insn_size(const struct qemu_plugin_insn *);
uint64_t qemu_plugin_tb_vaddr(const struct qemu_plugin_tb *);
void qemu_plugin_register_vcpu_tb_exec_cb(struct qemu_plugin_tb *, udata_cb, int flags, void *);
static uint64_t n, at, a_begin, a_end; static FILE *out;
/* m0=1: also Cortex-M0 cycles (ARM DDI 0432C table 3-1, no wait states, 1-cycle MUL): 1 each, load/store 2, push/pop/ldm/stm
   1+N, bl 4, taken branch 3, pop {..,pc} 4+N. A taken branch is seen as a block that does not start where the last one ended. */
static int m0; static uint64_t cyc, cat, last_end;
static int ones(unsigned x) { return __builtin_popcount(x); }
static unsigned m0_cycles(const uint8_t *d, size_t z) {
    unsigned h = d[0] | d[1] << 8;
    if (z == 4) { unsigned g = d[2] | d[3] << 8; return (h & 0xF800) == 0xF000 && (g & 0xD000) == 0xD000 ? 2 : 4; } /* BL: 2 + 2 taken; MRS, MSR, barriers 4 */
    if ((h & 0xF800) == 0x4800 || (h & 0xF000) == 0x5000 || (h & 0xE000) == 0x6000 || (h & 0xE000) == 0x8000) return 2; /* ldr/str; 0x8000: ldrh/strh, sp-relative */
    if ((h & 0xFE00) == 0xB400) return 1 + ones(h & 0x1FF);                        /* push */
    if ((h & 0xFE00) == 0xBC00) return h & 0x100 ? 2 + ones(h & 0x1FF) : 1 + ones(h & 0xFF); /* pop; with pc +2 taken */
    if ((h & 0xF000) == 0xC000) return 1 + ones(h & 0xFF);                         /* ldm/stm */
    return 1;
}
/* the size by the encoding: qemu 7.2 tells 4 of an instruction of 2 that stands 4 bytes before the end of a page of 1 KiB */
static size_t size_of(const struct qemu_plugin_insn *s) { const uint8_t *d = qemu_plugin_insn_data(s); return (d[0] | d[1] << 8) >= 0xE800 ? 4 : 2; }
struct span { uint64_t a, e; };
static void on_tb_exec(unsigned c, void *u) { struct span *t = u; if (last_end && t->a != last_end) cyc += 2; last_end = t->e; }
static void on_begin(unsigned c, void *u) { at = n; cat = cyc; }
static void on_end(unsigned c, void *u) { fprintf(out, "%llu %llu\n", (unsigned long long)(n - at), (unsigned long long)(cyc - cat)); }
static void on_tb(qemu_plugin_id_t id, struct qemu_plugin_tb *tb) {
    size_t k = qemu_plugin_tb_n_insns(tb);
    if (m0) { struct span *t = malloc(sizeof *t); struct qemu_plugin_insn *l = qemu_plugin_tb_get_insn(tb, k - 1); t->a = qemu_plugin_tb_vaddr(tb); t->e = qemu_plugin_insn_vaddr(l) + size_of(l); qemu_plugin_register_vcpu_tb_exec_cb(tb, on_tb_exec, CB_NO_REGS, t); }
    for (size_t i = 0; i < k; i++) {
        struct qemu_plugin_insn *s = qemu_plugin_tb_get_insn(tb, i);
        uint64_t v = qemu_plugin_insn_vaddr(s);
        qemu_plugin_register_vcpu_insn_exec_inline(s, INLINE_ADD_U64, &n, 1);
        if (m0) qemu_plugin_register_vcpu_insn_exec_inline(s, INLINE_ADD_U64, &cyc, m0_cycles(qemu_plugin_insn_data(s), size_of(s)));
        if (v == a_begin) qemu_plugin_register_vcpu_insn_exec_cb(s, on_begin, CB_NO_REGS, 0);
        if (v == a_end) qemu_plugin_register_vcpu_insn_exec_cb(s, on_end, CB_NO_REGS, 0);
    }
}
static void on_exit_(qemu_plugin_id_t id, void *u) { fprintf(out, "total %llu\n", (unsigned long long)n); fclose(out); }
__attribute__((visibility("default"))) int qemu_plugin_install(qemu_plugin_id_t id, const void *info, int argc, char **argv) {
    const char *f = "/dev/stderr";
    for (int i = 0; i < argc; i++) {
        if (!strncmp(argv[i], "begin=", 6)) a_begin = strtoull(argv[i] + 6, 0, 0);
        if (!strncmp(argv[i], "end=", 4)) a_end = strtoull(argv[i] + 4, 0, 0);
        if (!strncmp(argv[i], "out=", 4)) f = argv[i] + 4;
        if (!strncmp(argv[i], "m0=", 3)) m0 = atoi(argv[i] + 3);
    }
    if (!(out = fopen(f, "w"))) return -1;
    qemu_plugin_register_vcpu_tb_trans_cb(id, on_tb);
    qemu_plugin_register_atexit_cb(id, on_exit_, 0);
    return 0;
}
