/* A plain interpreter of Whitespace, to compare with: decoded once, a switch in a loop, heap as one array for the
   addresses from -16 to 2^24 - 1. It reads what this chain emits. Usage: whitespace FILE STEPS. */
#include <stdint.h>
#include <stdio.h>
#include <stdlib.h>
#include <string.h>

enum kind { PUSH, DUPLICATE, SWAP, DISCARD, COPY, SLIDE, ADD, SUB, MUL, DIV, MOD, STORE, RETRIEVE, MARK, CALL, JUMP,
            JUMP_ZERO, JUMP_NEGATIVE, RETURN, END, WRITE_CHAR, READ_CHAR };
struct op { uint32_t kind; int64_t number; };

static char *signs;
static size_t at, length;
static char **names;
static uint32_t *places;
static size_t name_count;

static int next(void) { return at < length ? signs[at++] : (fprintf(stderr, "cut\n"), exit(1), 0); }

static int64_t number(void) {
    int minus = next() == 'T';
    int64_t n = 0;
    for (int s = next(); s != 'L'; s = next()) n = n * 2 + (s == 'T');
    return minus ? -n : n;
}

/* The label's index: labels are kept in a table that is searched by hashing. */
static size_t *table;
enum { TABLE = 1 << 22 };
static size_t label(void) {
    size_t from = at;
    while (next() != 'L') {}
    size_t n = at - from;
    char *name = malloc(n + 1);
    memcpy(name, signs + from, n);
    name[n] = 0;
    uint64_t hash = 1469598103934665603u;
    for (size_t k = 0; k < n; k++) hash = (hash ^ (uint64_t)name[k]) * 1099511628211u;
    size_t slot = hash % TABLE;
    while (table[slot]) {
        if (!strcmp(names[table[slot]], name)) { free(name); return table[slot]; }
        slot = (slot + 1) % TABLE;
    }
    names[++name_count] = name;
    return table[slot] = name_count;
}

static int64_t floored(int64_t x, int64_t y) { return x / y - ((x % y != 0) && ((x < 0) != (y < 0))); }

static struct op decode(size_t place) {
    int a = next(), b, c;
    if (a == 'S') {
        b = next();
        if (b == 'S') return (struct op){PUSH, number()};
        c = next();
        if (b == 'L') return (struct op){c == 'S' ? DUPLICATE : c == 'T' ? SWAP : DISCARD, 0};
        return (struct op){c == 'S' ? COPY : SLIDE, number()};
    }
    if (a == 'T') {
        b = next(), c = next();
        if (b == 'S' && c == 'S') { int d = next(); return (struct op){d == 'S' ? ADD : d == 'T' ? SUB : MUL, 0}; }
        if (b == 'S') return (struct op){next() == 'S' ? DIV : MOD, 0};
        if (b == 'T') return (struct op){c == 'S' ? STORE : RETRIEVE, 0};
        next();
        return (struct op){c == 'S' ? WRITE_CHAR : READ_CHAR, 0};
    }
    b = next(), c = next();
    if (b == 'L') return (struct op){END, 0};
    if (b == 'T' && c == 'L') return (struct op){RETURN, 0};
    uint32_t kind = b == 'T' ? (c == 'S' ? JUMP_ZERO : JUMP_NEGATIVE) : c == 'S' ? MARK : c == 'T' ? CALL : JUMP;
    int64_t name = (int64_t)label();
    if (kind == MARK) places[name] = (uint32_t)place;
    return (struct op){kind, name};
}

int main(int argc, char **argv) {
    if (argc != 3) return 2;
    FILE *file = fopen(argv[1], "rb");
    if (!file) return 5;
    fseek(file, 0, SEEK_END);
    size_t bytes = (size_t)ftell(file);
    rewind(file);
    signs = malloc(bytes + 1);
    for (int c; (c = getc_unlocked(file)) != EOF;)
        if (c == ' ' || c == '\t' || c == '\n') signs[length++] = c == ' ' ? 'S' : c == '\t' ? 'T' : 'L';
    table = calloc(TABLE, sizeof *table);
    names = calloc(TABLE, sizeof *names);
    places = calloc(TABLE, sizeof *places);
    struct op *ops = malloc((length / 3 + 1) * sizeof *ops);
    uint32_t count = 0;
    while (at < length) ops[count] = decode(count), count++;
    for (uint32_t k = 0; k < count; k++)
        if (ops[k].kind >= MARK && ops[k].kind <= JUMP_NEGATIVE) ops[k].number = places[ops[k].number];
    int64_t *heap = (int64_t *)calloc((1 << 24) + 16, sizeof *heap) + 16;
    int64_t *stack = malloc(8 << 20), *top = stack - 1;
    uint32_t *calls = malloc(8 << 20), depth = 0;
    uint64_t limit = strtoull(argv[2], NULL, 10), done = 0;
    uint32_t p = 0;
    while (done < limit && p < count) {
        const struct op op = ops[p++];
        done++;
        switch (op.kind) {
        case PUSH: *++top = op.number; break;
        case DUPLICATE: top[1] = top[0], top++; break;
        case SWAP: { int64_t x = top[0]; top[0] = top[-1], top[-1] = x; break; }
        case DISCARD: top--; break;
        case COPY: top[1] = top[-op.number], top++; break;
        case SLIDE: top[-op.number] = top[0], top -= op.number; break;
        case ADD: top[-1] += top[0], top--; break;
        case SUB: top[-1] -= top[0], top--; break;
        case MUL: top[-1] *= top[0], top--; break;
        case DIV: top[-1] = floored(top[-1], top[0]), top--; break;
        case MOD: top[-1] -= top[0] * floored(top[-1], top[0]), top--; break;
        case STORE: heap[top[-1]] = top[0], top -= 2; break;
        case RETRIEVE: top[0] = heap[top[0]]; break;
        case MARK: break;
        case CALL: calls[depth++] = p, p = (uint32_t)op.number; break;
        case JUMP: p = (uint32_t)op.number; break;
        case JUMP_ZERO: if (*top-- == 0) p = (uint32_t)op.number; break;
        case JUMP_NEGATIVE: if (*top-- < 0) p = (uint32_t)op.number; break;
        case RETURN: p = calls[--depth]; break;
        case END: fflush(stdout); return 0;
        case WRITE_CHAR: putchar_unlocked((int)(*top-- & 255)); break;
        case READ_CHAR: { int c = getchar_unlocked(); heap[*top--] = c < 0 ? 0 : c; break; }
        }
    }
    fflush(stdout);
    return p < count ? 3 : 4;
}
