/* A plain interpreter of EIR, to compare with: a switch in a loop over decoded operations, memory as one array.
   Usage: eir FILE STEPS. It reads only what bench/ratios.py writes: a text section with labels and operations. */
#include <stdint.h>
#include <stdio.h>
#include <stdlib.h>
#include <string.h>

enum { MASK = 0xFFFFFF, MOST = 1 << 21 };
enum kind { MOV, ADD, SUB, LOAD, STORE, PUTC, GETC, EXIT, SET, JUMP, JUMP_IF };

struct op {
    uint8_t kind, test, reg, value_is_reg, target_is_reg;
    uint32_t value, target;
};

static struct op *ops;
static uint32_t *first; /* the first operation of each block */
static uint32_t op_count, block_count;
static char (*labels)[32];
static uint32_t *label_values;
static uint32_t label_count;

static const char *registers[] = {"A", "B", "C", "D", "SP", "BP"};
static const char *tests[] = {"eq", "ne", "lt", "gt", "le", "ge"};

static int register_of(const char *word) {
    for (int r = 0; r < 6; r++)
        if (!strcmp(word, registers[r])) return r;
    return -1;
}

static uint32_t number_of(const char *word) {
    if (*word == '-' || (*word >= '0' && *word <= '9')) return (uint32_t)strtol(word, NULL, 10) & MASK;
    for (uint32_t k = 0; k < label_count; k++)
        if (!strcmp(word, labels[k])) return label_values[k];
    fprintf(stderr, "no label %s\n", word);
    exit(2);
}

static void value(const char *word, uint8_t *is_reg, uint32_t *number) {
    int r = register_of(word);
    *is_reg = r >= 0;
    *number = r >= 0 ? (uint32_t)r : number_of(word);
}

/* Labels first, then operations: the text is gone through twice. */
static void read_lines(char *text, int pass) {
    uint32_t block = 0, here = 0, count = 0;
    char *rest = text;
    while (rest && *rest) {
        char line[256], *words[5];
        int n = 0;
        char *end = strchr(rest, '\n');
        size_t length = end ? (size_t)(end - rest) : strlen(rest);
        memcpy(line, rest, length);
        line[length] = 0;
        rest = end ? end + 1 : NULL;
        for (char *w = strtok(line, " \t,"); w && n < 5; w = strtok(NULL, " \t,")) words[n++] = w;
        int at = 0;
        while (at < n && words[at][strlen(words[at]) - 1] == ':') {
            if (here) block++, here = 0;
            if (!pass) {
                words[at][strlen(words[at]) - 1] = 0;
                strcpy(labels[label_count], words[at]);
                label_values[label_count++] = block;
            }
            at++;
        }
        if (at == n) continue;
        struct op op = {0};
        const char *name = words[at];
        char **given = words + at + 1;
        int jumps = name[0] == 'j';
        if (pass) {
            const char *plain[] = {"mov", "add", "sub", "load", "store"};
            for (int k = 0; k < 5; k++)
                if (!strcmp(name, plain[k])) {
                    op.kind = k;
                    op.reg = register_of(given[0]);
                    value(given[1], &op.value_is_reg, &op.value);
                }
            for (int k = 0; k < 6; k++) {
                if (!strcmp(name, tests[k])) {
                    op.kind = SET, op.test = k;
                    op.reg = register_of(given[0]);
                    value(given[1], &op.value_is_reg, &op.value);
                }
                if (jumps && !strcmp(name + 1, tests[k])) {
                    op.kind = JUMP_IF, op.test = k;
                    value(given[0], &op.target_is_reg, &op.target);
                    op.reg = register_of(given[1]);
                    value(given[2], &op.value_is_reg, &op.value);
                }
            }
            if (!strcmp(name, "putc")) op.kind = PUTC, value(given[0], &op.value_is_reg, &op.value);
            if (!strcmp(name, "getc")) op.kind = GETC, op.reg = register_of(given[0]);
            if (!strcmp(name, "exit")) op.kind = EXIT;
            if (!strcmp(name, "jmp")) op.kind = JUMP, value(given[0], &op.target_is_reg, &op.target);
            if (!here) first[block] = count;
            ops[count] = op;
        }
        count++, here++;
        if (jumps) block++, here = 0;
    }
    op_count = count;
    block_count = block + (here > 0);
}

static int holds(int test, uint32_t x, uint32_t y) {
    switch (test) {
    case 0: return x == y;
    case 1: return x != y;
    case 2: return x < y;
    case 3: return x > y;
    case 4: return x <= y;
    default: return x >= y;
    }
}

int main(int argc, char **argv) {
    if (argc != 3) return 2;
    FILE *file = fopen(argv[1], "rb");
    if (!file) return 5;
    fseek(file, 0, SEEK_END);
    long length = ftell(file);
    rewind(file);
    char *text = calloc(length + 1, 1);
    if (fread(text, 1, length, file) != (size_t)length) return 5;
    ops = calloc(MOST, sizeof *ops);
    first = calloc(MOST, sizeof *first);
    labels = calloc(4096, sizeof *labels);
    label_values = calloc(4096, sizeof *label_values);
    read_lines(text, 0);
    read_lines(text, 1);
    uint32_t *memory = calloc(1 << 24, sizeof *memory);
    uint32_t reg[6] = {0};
    uint64_t limit = strtoull(argv[2], NULL, 10), done = 0;
    uint32_t at = 0;
    while (at < op_count && done < limit) {
        const struct op *op = &ops[at];
        uint32_t v = op->value_is_reg ? reg[op->value] : op->value;
        done++;
        at++;
        switch (op->kind) {
        case MOV: reg[op->reg] = v; break;
        case ADD: reg[op->reg] = (reg[op->reg] + v) & MASK; break;
        case SUB: reg[op->reg] = (reg[op->reg] - v) & MASK; break;
        case LOAD: reg[op->reg] = memory[v]; break;
        case STORE: memory[v] = reg[op->reg]; break;
        case PUTC: putchar_unlocked(v & 255); break;
        case GETC: {
            int c = getchar_unlocked();
            reg[op->reg] = c < 0 ? 0 : (uint32_t)c;
            break;
        }
        case EXIT: at = op_count; break;
        case SET: reg[op->reg] = holds(op->test, reg[op->reg], v); break;
        case JUMP_IF:
            if (!holds(op->test, reg[op->reg], v)) break;
            /* fall through */
        case JUMP: {
            uint32_t to = op->target_is_reg ? reg[op->target] : op->target;
            at = to < block_count ? first[to] : op_count;
            break;
        }
        }
    }
    fflush(stdout);
    return at < op_count ? 3 : 0;
}
