/* Compares rows of instructions with this processor. Each line of standard input is a mnemonic, its operands, and what is
   expected: a value and the letters of the flags (c z s o p, or - for none, or * where the flags aren't compared). Prints each row
   that differs and how many were compared; its status is 1 if one differed. bench/processor.py makes the rows. */
#include <inttypes.h>
#include <setjmp.h>
#include <signal.h>
#include <stdio.h>
#include <string.h>

static sigjmp_buf fault;

static void on_fault(int number) { siglongjmp(fault, number); }

#define BINARY(name) \
    static uint32_t do_##name(uint32_t a, uint32_t b, uint64_t *flags) { \
        __asm__ volatile(#name "l %2, %0\n\tpushfq\n\tpopq %1" : "+r"(a), "=&r"(*flags) : "r"(b) : "cc"); \
        return a; \
    }
#define SHIFT(name) \
    static uint32_t do_##name(uint32_t a, uint32_t b, uint64_t *flags) { \
        __asm__ volatile(#name "l %%cl, %0\n\tpushfq\n\tpopq %1" : "+r"(a), "=&r"(*flags) : "c"(b) : "cc"); \
        return a; \
    }
#define EXTEND(name, instruction, constraint) \
    static uint32_t do_##name(uint32_t a, uint32_t b, uint64_t *flags) { \
        uint32_t result; \
        (void)b; \
        *flags = 0; \
        __asm__ volatile(instruction : "=r"(result) : "q"(a)); \
        return result; \
    }
BINARY(add) BINARY(sub) BINARY(and) BINARY(or) BINARY(xor) BINARY(imul)
SHIFT(shl) SHIFT(shr) SHIFT(sar)
EXTEND(movsx8, "movsbl %b1, %0", "q") EXTEND(movsx16, "movswl %w1, %0", "r")
EXTEND(movzx8, "movzbl %b1, %0", "q") EXTEND(movzx16, "movzwl %w1, %0", "r")

static uint32_t do_neg(uint32_t a, uint32_t b, uint64_t *flags) {
    (void)b;
    __asm__ volatile("negl %0\n\tpushfq\n\tpopq %1" : "+r"(a), "=&r"(*flags) : : "cc");
    return a;
}

typedef uint32_t operation(uint32_t, uint32_t, uint64_t *);
static const struct { const char *name; operation *run; } operations[] = {
    {"add", do_add}, {"sub", do_sub}, {"and", do_and}, {"or", do_or}, {"xor", do_xor}, {"imul", do_imul},
    {"shl", do_shl}, {"shr", do_shr}, {"sar", do_sar}, {"neg", do_neg},
    {"movsx8", do_movsx8}, {"movsx16", do_movsx16}, {"movzx8", do_movzx8}, {"movzx16", do_movzx16},
};

#define CONDITION(name) \
    { unsigned char set; \
      __asm__ volatile("cmpl %2, %1\n\tset" #name " %0" : "=q"(set) : "r"(a), "r"(b) : "cc"); \
      if (set) { strcat(held, *held ? " " : ""); strcat(held, #name); } }

static void conditions(uint32_t a, uint32_t b, char *held) {
    *held = 0;
    CONDITION(o) CONDITION(no) CONDITION(b) CONDITION(ae) CONDITION(e) CONDITION(ne) CONDITION(be) CONDITION(a)
    CONDITION(s) CONDITION(ns) CONDITION(p) CONDITION(np) CONDITION(l) CONDITION(ge) CONDITION(le) CONDITION(g)
}

static void divide(int sign, uint32_t high, uint32_t low, uint32_t by, char *result) {
    if (sigsetjmp(fault, 1)) {
        strcpy(result, "fault");
        return;
    }
    if (sign) {
        __asm__ volatile("idivl %2" : "+a"(low), "+d"(high) : "r"(by) : "cc");
    } else {
        __asm__ volatile("divl %2" : "+a"(low), "+d"(high) : "r"(by) : "cc");
    }
    sprintf(result, "%" PRIu32 " %" PRIu32, low, high);
}

static void letters(uint64_t flags, char *text) {
    static const struct { int bit; char letter; } all[] = {{0, 'c'}, {6, 'z'}, {7, 's'}, {11, 'o'}, {2, 'p'}};
    for (int i = 0; i < 5; i++) {
        if (flags >> all[i].bit & 1) { *text++ = all[i].letter; }
    }
    *text = 0;
}

int main(void) {
    char line[256], name[16], expected[128], got[160];
    int compared = 0, differed = 0;
    signal(SIGFPE, on_fault);
    while (fgets(line, sizeof line, stdin)) {
        uint32_t a, b, by;
        int rest = 0;
        line[strcspn(line, "\n")] = 0;
        if (sscanf(line, "%15s", name) != 1) { continue; }
        if (!strcmp(name, "div") || !strcmp(name, "idiv")) {
            if (sscanf(line, "%*s %" SCNu32 " %" SCNu32 " %" SCNu32 " %n", &a, &b, &by, &rest) != 3) { return 2; }
            divide(*name == 'i', a, b, by, got);
        } else if (!strcmp(name, "cmp")) {
            if (sscanf(line, "%*s %" SCNu32 " %" SCNu32 " %n", &a, &b, &rest) != 2) { return 2; }
            conditions(a, b, got);
        } else {
            operation *run = NULL;
            uint64_t flags = 0;
            char set[8];
            for (size_t i = 0; i < sizeof operations / sizeof *operations; i++) {
                if (!strcmp(name, operations[i].name)) { run = operations[i].run; }
            }
            if (!run || sscanf(line, "%*s %" SCNu32 " %" SCNu32 " %n", &a, &b, &rest) != 2) { return 2; }
            uint32_t value = run(a, b, &flags);
            letters(flags, set);
            if (strchr(line + rest, '*')) { strcpy(set, "*"); }
            sprintf(got, "%" PRIu32 " %s", value, *set ? set : "-");
        }
        snprintf(expected, sizeof expected, "%s", line + rest);
        compared++;
        if (strcmp(expected, got)) {
            differed++;
            printf("%s: the processor gives %s\n", line, got);
        }
    }
    printf("%d rows compared, %d differ\n", compared, differed);
    return differed != 0;
}
