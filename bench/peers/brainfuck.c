/* A plain interpreter of Brainfuck that folds runs of commands and [-], to compare with. Usage: brainfuck FILE STEPS,
   where STEPS counts single commands. */
#include <stdint.h>
#include <stdio.h>
#include <stdlib.h>

enum kind { MOVE, ADD, OUT, IN, OPEN, CLOSE, CLEAR };
struct op { uint32_t kind; int32_t number; };

int main(int argc, char **argv) {
    if (argc != 3) return 2;
    FILE *file = fopen(argv[1], "rb");
    if (!file) return 5;
    fseek(file, 0, SEEK_END);
    size_t length = (size_t)ftell(file), n = 0;
    rewind(file);
    char *text = malloc(length + 3);
    for (int c; (c = getc_unlocked(file)) != EOF;)
        if (c == '>' || c == '<' || c == '+' || c == '-' || c == '.' || c == ',' || c == '[' || c == ']') text[n++] = (char)c;
    struct op *ops = malloc((n + 1) * sizeof *ops);
    uint32_t *open = malloc((n + 1) * sizeof *open), depth = 0, count = 0;
    for (size_t k = 0; k < n;) {
        if (text[k] == '[' && k + 2 < n && text[k + 1] == '-' && text[k + 2] == ']') {
            ops[count++] = (struct op){CLEAR, 0};
            k += 3;
        } else if (text[k] == '[') {
            open[depth++] = count;
            ops[count++] = (struct op){OPEN, 0};
            k++;
        } else if (text[k] == ']') {
            uint32_t from = open[--depth];
            ops[from].number = (int32_t)count;
            ops[count++] = (struct op){CLOSE, (int32_t)from};
            k++;
        } else if (text[k] == '.' || text[k] == ',') {
            ops[count++] = (struct op){text[k] == '.' ? OUT : IN, 0};
            k++;
        } else {
            int moves = text[k] == '>' || text[k] == '<';
            int32_t sum = 0;
            while (k < n && (moves ? text[k] == '>' || text[k] == '<' : text[k] == '+' || text[k] == '-'))
                sum += text[k] == '>' || text[k] == '+' ? 1 : -1, k++;
            ops[count++] = (struct op){moves ? MOVE : ADD, sum};
        }
    }
    uint8_t *tape = calloc(1 << 28, 1), *head = tape;
    uint64_t limit = strtoull(argv[2], NULL, 10), done = 0;
    uint32_t p = 0;
    while (p < count && done < limit) {
        const struct op op = ops[p++];
        switch (op.kind) {
        case MOVE: head += op.number; done += (uint64_t)abs(op.number); break;
        case ADD: *head = (uint8_t)(*head + op.number); done += (uint64_t)abs(op.number); break;
        case CLEAR: done += 1 + 2u * *head, *head = 0; break;
        case OPEN: done++; if (!*head) p = (uint32_t)op.number + 1; break;
        case CLOSE: done++; if (*head) p = (uint32_t)op.number + 1; break;
        case OUT: done++; putchar_unlocked(*head); break;
        case IN: { int c = getchar_unlocked(); done++; *head = c < 0 ? 0 : (uint8_t)c; break; }
        }
    }
    fflush(stdout);
    return p < count ? 3 : 0;
}
