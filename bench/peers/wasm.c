/* A plain interpreter of WebAssembly, to compare with: one function, decoded once with the ends of its blocks, a switch
   in a loop. It runs what this chain emits: `main` alone, with env.getchar and env.putchar. Usage: wasm FILE STEPS. */
#include <stdint.h>
#include <stdio.h>
#include <stdlib.h>
#include <string.h>

struct op { uint32_t code, number, end, other, *targets; };

static uint8_t *bytes;
static size_t at, length;
static int imports[2], import_count; /* 0 getchar, 1 putchar */
static uint8_t *memory;
static uint32_t globals[64];

static uint32_t unsigned_leb(void) {
    uint32_t n = 0;
    for (int shift = 0;; shift += 7) {
        uint8_t b = bytes[at++];
        n |= (uint32_t)(b & 127) << shift;
        if (b < 128) return n;
    }
}

static int32_t signed_leb(void) {
    int64_t n = 0;
    for (int shift = 0;;) {
        uint8_t b = bytes[at++];
        n |= (int64_t)(b & 127) << shift;
        shift += 7;
        if (b < 128) return (int32_t)((b & 64) ? n - ((int64_t)1 << shift) : n);
    }
}

static void skip_name(void) { uint32_t n = unsigned_leb(); at += n; }

/* The operations of a body, with the place behind the end of each block and its else. */
static struct op *decode(size_t end, uint32_t *count) {
    struct op *ops = calloc(end - at + 1, sizeof *ops);
    uint32_t *open = malloc((end - at + 1) * sizeof *open), depth = 0, n = 0;
    while (at < end) {
        struct op *op = &ops[n];
        op->code = bytes[at++];
        switch (op->code) {
        case 0x02: case 0x03: case 0x04: at++; open[depth++] = n; break;
        case 0x05: ops[open[depth - 1]].other = n + 1; break;
        case 0x0B: if (depth) ops[open[--depth]].end = n; break;
        case 0x0C: case 0x0D: case 0x10: case 0x20: case 0x21: case 0x22: case 0x23: case 0x24: op->number = unsigned_leb(); break;
        case 0x0E:
            op->number = unsigned_leb();
            op->targets = malloc((op->number + 1) * sizeof(uint32_t));
            for (uint32_t k = 0; k <= op->number; k++) op->targets[k] = unsigned_leb();
            break;
        case 0x41: op->number = (uint32_t)signed_leb(); break;
        case 0x3F: case 0x40: at++; break;
        default: if (op->code >= 0x28 && op->code <= 0x3E) unsigned_leb(), op->number = unsigned_leb();
        }
        n++;
    }
    for (uint32_t k = 0; k < n; k++)
        if (ops[k].code == 0x05) /* an else reached from above goes behind the end of its if */
            for (uint32_t j = k, d = 0; j < n; j++) {
                if (ops[j].code >= 0x02 && ops[j].code <= 0x04) d++;
                if (ops[j].code == 0x0B && d-- == 0) { ops[k].end = j + 1; break; }
            }
    *count = n;
    return ops;
}

static uint32_t read32(uint32_t a) { uint32_t v; memcpy(&v, memory + a, 4); return v; }

static int run(const struct op *ops, uint32_t count, uint32_t *local, uint64_t limit) {
    uint32_t *stack = malloc(1 << 20), *top = stack - 1;
    uint32_t *labels = malloc(1 << 22); /* the block that each label belongs to */
    uint32_t depth = 0, p = 0, x, to;
    for (uint64_t done = 0; done < limit && p < count; done++) {
        const struct op *op = &ops[p++];
        switch (op->code) {
        case 0x00: return 4;
        case 0x01: break;
        case 0x02: case 0x03: labels[depth++] = p - 1; break;
        case 0x04:
            x = *top--;
            labels[depth++] = p - 1;
            if (!x) p = op->other ? op->other : op->end;
            break;
        case 0x05: depth--; p = op->end; break;
        case 0x0B: if (depth) depth--; else return 0; break;
        case 0x0D: if (!*top--) break; to = op->number; goto branch;
        case 0x0E: x = *top--; to = op->targets[x < op->number ? x : op->number]; goto branch;
        case 0x0C: to = op->number;
        branch: {
            if (to >= depth) return 0;
            depth -= to + 1;
            uint32_t block = labels[depth];
            p = ops[block].code == 0x03 ? block : ops[block].end + 1;
            break;
        }
        case 0x0F: return 0;
        case 0x10:
            if (imports[op->number]) putchar_unlocked((int)(*top-- & 255));
            else { int c = getchar_unlocked(); *++top = c < 0 ? 0 : (uint32_t)c; }
            break;
        case 0x1A: top--; break;
        case 0x1B: top -= 2; if (!top[2]) top[0] = top[1]; break;
        case 0x20: *++top = local[op->number]; break;
        case 0x21: local[op->number] = *top--; break;
        case 0x22: local[op->number] = *top; break;
        case 0x23: *++top = globals[op->number]; break;
        case 0x24: globals[op->number] = *top--; break;
        case 0x28: *top = read32(*top + op->number); break;
        case 0x2D: *top = memory[*top + op->number]; break;
        case 0x36: memcpy(memory + top[-1] + op->number, top, 4); top -= 2; break;
        case 0x3A: memory[top[-1] + op->number] = (uint8_t)*top; top -= 2; break;
        case 0x41: *++top = op->number; break;
        case 0x45: *top = !*top; break;
        case 0x46: top--, *top = top[0] == top[1]; break;
        case 0x47: top--, *top = top[0] != top[1]; break;
        case 0x48: top--, *top = (int32_t)top[0] < (int32_t)top[1]; break;
        case 0x49: top--, *top = top[0] < top[1]; break;
        case 0x4A: top--, *top = (int32_t)top[0] > (int32_t)top[1]; break;
        case 0x4B: top--, *top = top[0] > top[1]; break;
        case 0x4D: top--, *top = top[0] <= top[1]; break;
        case 0x4F: top--, *top = top[0] >= top[1]; break;
        case 0x6A: top--, *top = top[0] + top[1]; break;
        case 0x6B: top--, *top = top[0] - top[1]; break;
        case 0x6C: top--, *top = top[0] * top[1]; break;
        case 0x71: top--, *top = top[0] & top[1]; break;
        case 0x72: top--, *top = top[0] | top[1]; break;
        case 0x73: top--, *top = top[0] ^ top[1]; break;
        case 0x74: top--, *top = top[0] << (top[1] & 31); break;
        case 0x76: top--, *top = top[0] >> (top[1] & 31); break;
        default: fprintf(stderr, "opcode %02X\n", op->code); return 2;
        }
    }
    return p < count ? 3 : 0;
}

int main(int argc, char **argv) {
    if (argc != 3) return 2;
    FILE *file = fopen(argv[1], "rb");
    if (!file) return 5;
    fseek(file, 0, SEEK_END);
    length = (size_t)ftell(file);
    rewind(file);
    bytes = malloc(length + 1);
    if (fread(bytes, 1, length, file) != length) return 5;
    struct op *ops = NULL;
    uint32_t count = 0, *local = calloc(70000, 4);
    at = 8;
    while (at < length) {
        uint8_t section = bytes[at++];
        uint32_t size = unsigned_leb();
        size_t end = at + size;
        if (section == 2) {
            import_count = (int)unsigned_leb();
            for (int k = 0; k < import_count; k++) {
                skip_name();
                imports[k] = bytes[at + 1] == 'p';
                skip_name();
                at++, unsigned_leb();
            }
        }
        if (section == 5) { unsigned_leb(), at++; memory = calloc(unsigned_leb() + 1, 65536); }
        if (section == 6) {
            uint32_t n = unsigned_leb();
            for (uint32_t k = 0; k < n; k++) at += 3, globals[k] = (uint32_t)signed_leb(), at++;
        }
        if (section == 10) {
            unsigned_leb();
            size_t body = unsigned_leb();
            size_t stop = at + body;
            for (uint32_t k = unsigned_leb(); k > 0; k--) unsigned_leb(), at++;
            ops = decode(stop, &count);
        }
        if (section == 11) {
            for (uint32_t k = unsigned_leb(); k > 0; k--) {
                unsigned_leb(), at++;
                uint32_t to = (uint32_t)signed_leb();
                at++;
                uint32_t n = unsigned_leb();
                memcpy(memory + to, bytes + at, n), at += n;
            }
        }
        at = end;
    }
    int status = run(ops, count, local, strtoull(argv[2], NULL, 10));
    fflush(stdout);
    return status;
}
