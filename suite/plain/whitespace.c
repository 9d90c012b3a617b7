/* Whitespace: a stack machine whose programs are spaces, tabs and line feeds. */
#include "plain.h"

enum kind {
    PUSH, DUPLICATE, COPY, SWAP, DISCARD, SLIDE, ADD, SUBTRACT, MULTIPLY, DIVIDE, MODULO, STORE, RETRIEVE,
    MARK, CALL, JUMP, JUMP_IF_ZERO, JUMP_IF_NEGATIVE, RETURN, END, WRITE_CHARACTER, WRITE_NUMBER, READ_CHARACTER, READ_NUMBER
};
enum parameter { NONE, NUMBER, LABEL };

/* S is a space, T a tab, L a line feed. No spelling begins with another one. */
static const struct form { const char *spelling; enum kind kind; enum parameter parameter; } forms[] = {
    { "SS", PUSH, NUMBER }, { "SLS", DUPLICATE, NONE }, { "STS", COPY, NUMBER }, { "SLT", SWAP, NONE },
    { "SLL", DISCARD, NONE }, { "STL", SLIDE, NUMBER },
    { "TSSS", ADD, NONE }, { "TSST", SUBTRACT, NONE }, { "TSSL", MULTIPLY, NONE }, { "TSTS", DIVIDE, NONE }, { "TSTT", MODULO, NONE },
    { "TTS", STORE, NONE }, { "TTT", RETRIEVE, NONE },
    { "LSS", MARK, LABEL }, { "LST", CALL, LABEL }, { "LSL", JUMP, LABEL }, { "LTS", JUMP_IF_ZERO, LABEL },
    { "LTT", JUMP_IF_NEGATIVE, LABEL }, { "LTL", RETURN, NONE }, { "LLL", END, NONE },
    { "TLSS", WRITE_CHARACTER, NONE }, { "TLST", WRITE_NUMBER, NONE }, { "TLTS", READ_CHARACTER, NONE }, { "TLTT", READ_NUMBER, NONE },
};
enum { FORMS = sizeof forms / sizeof *forms };

struct instruction {
    enum kind kind;
    int64_t number;  /* of a push, copy or slide */
    size_t at, size; /* of a label: where its signs stand among all signs, and how many there are */
    size_t place;    /* in the file, of the first byte */
    size_t target;   /* of a call or jump: the instruction to go to */
};

static char *signs; /* the program without its comments, as the letters S, T and L */
static size_t *places, sign_count;
static struct instruction *program;
static size_t count;

static void read_signs(void) {
    signs = checked(malloc(length + 1));
    places = checked(malloc((length + 1) * sizeof *places));
    for (size_t place = 0; place < length; place++) {
        char sign = text[place] == ' ' ? 'S' : text[place] == '\t' ? 'T' : text[place] == '\n' ? 'L' : 0;
        if (sign == 0) continue; /* a comment */
        places[sign_count] = place;
        signs[sign_count++] = sign;
    }
    signs[sign_count] = 0;
}

/* A sign, S for plus and T for minus, the digits S for 0 and T for 1, highest first, and L. Without digits it is 0. */
static size_t read_number(size_t at, struct instruction *instruction) {
    if (at >= sign_count || signs[at] == 'L') refuse("a number without its sign", instruction->place);
    bool negative = signs[at++] == 'T', fits = true;
    for (; at < sign_count && signs[at] != 'L'; at++) {
        int64_t digit = signs[at] == 'T';
        fits = fits && !__builtin_mul_overflow(instruction->number, 2, &instruction->number);
        fits = fits && !__builtin_add_overflow(instruction->number, negative ? -digit : digit, &instruction->number);
    }
    if (at == sign_count) refuse("an instruction that is cut off", instruction->place);
    if (!fits) refuse("a number outside 64 bits", instruction->place);
    return at + 1;
}

/* The signs S and T, perhaps none, and L. */
static size_t read_label(size_t at, struct instruction *instruction) {
    instruction->at = at;
    while (at < sign_count && signs[at] != 'L') at++;
    if (at == sign_count) refuse("an instruction that is cut off", instruction->place);
    instruction->size = at - instruction->at;
    return at + 1;
}

static void read_instructions(void) {
    program = checked(calloc(sign_count + 1, sizeof *program));
    for (size_t at = 0; at < sign_count;) {
        const struct form *form = forms;
        while (form < forms + FORMS && strncmp(signs + at, form->spelling, strlen(form->spelling)) != 0) form++;
        if (form == forms + FORMS) refuse("no instruction", places[at]);
        struct instruction *instruction = &program[count++];
        instruction->kind = form->kind;
        instruction->place = places[at];
        at += strlen(form->spelling);
        if (form->parameter == NUMBER) at = read_number(at, instruction);
        if (form->parameter == LABEL) at = read_label(at, instruction);
    }
}

static bool has_label(const struct instruction *instruction) {
    return instruction->kind >= MARK && instruction->kind <= JUMP_IF_NEGATIVE;
}

static int compare_labels(const void *left, const void *right) {
    const struct instruction *one = *(struct instruction *const *)left, *other = *(struct instruction *const *)right;
    if (one->size != other->size) return one->size < other->size ? -1 : 1;
    return memcmp(signs + one->at, signs + other->at, one->size);
}

/* Each label is marked once; of all that break this the first is refused. */
static void find_targets(void) {
    struct instruction **marks = checked(malloc((count + 1) * sizeof *marks));
    size_t mark_count = 0, worst = SIZE_MAX;
    for (size_t k = 0; k < count; k++)
        if (program[k].kind == MARK) marks[mark_count++] = &program[k];
    qsort(marks, mark_count, sizeof *marks, compare_labels);
    for (size_t k = 1; k < mark_count; k++)
        if (compare_labels(&marks[k - 1], &marks[k]) == 0) {
            size_t later = marks[k - 1]->place > marks[k]->place ? marks[k - 1]->place : marks[k]->place;
            if (later < worst) worst = later;
        }
    for (size_t k = 0; k < count; k++) {
        struct instruction *instruction = &program[k];
        if (!has_label(instruction)) continue;
        struct instruction **mark = bsearch(&instruction, marks, mark_count, sizeof *marks, compare_labels);
        if (mark == NULL && instruction->place < worst) worst = instruction->place;
        if (mark != NULL) instruction->target = (size_t)(*mark - program);
    }
    if (worst != SIZE_MAX) refuse("a label that is marked twice or nowhere", worst);
    free(marks);
}

static struct stack values, calls;
static struct table heap;

/* How many values an instruction takes from the stack, or looks at. */
static uint64_t operands(const struct instruction *instruction) {
    switch (instruction->kind) {
    case DUPLICATE: case DISCARD: case RETRIEVE: case JUMP_IF_ZERO: case JUMP_IF_NEGATIVE: return 1;
    case WRITE_CHARACTER: case WRITE_NUMBER: case READ_CHARACTER: case READ_NUMBER: return 1;
    case SWAP: case ADD: case SUBTRACT: case MULTIPLY: case DIVIDE: case MODULO: case STORE: return 2;
    case COPY: case SLIDE: return instruction->number < 0 ? UINT64_MAX : (uint64_t)instruction->number + 1;
    default: return 0;
    }
}

static bool calculate(enum kind kind) {
    int64_t right = pop(&values), left = pop(&values), result = 0, other = 0;
    bool fits = true;
    switch (kind) {
    case ADD: fits = !__builtin_add_overflow(left, right, &result); break;
    case SUBTRACT: fits = !__builtin_sub_overflow(left, right, &result); break;
    case MULTIPLY: fits = !__builtin_mul_overflow(left, right, &result); break;
    case DIVIDE: fits = right != 0 && floored(left, right, &result, &other); break;
    default: fits = right != 0; if (fits) floored(left, right, &other, &result);
    }
    if (fits) push(&values, result);
    return fits;
}

/* The top stays, and `number` values below it go. */
static void slide(int64_t number) {
    int64_t top = pop(&values);
    values.depth -= (size_t)number;
    push(&values, top);
}

static bool read_to(int64_t address, bool is_number) {
    int64_t number;
    if (!is_number) number = next_byte();
    else if (!next_number(&number)) return false;
    set_number(&heap, address, number);
    return true;
}

static enum status run(void) {
    int64_t first, second;
    for (size_t next = 0; next < count;) {
        const struct instruction *instruction = &program[next++];
        if (steps == limit) return STILL_GOING;
        steps++;
        if (values.depth < operands(instruction)) return FAULT;
        switch (instruction->kind) {
        case PUSH: push(&values, instruction->number); break;
        case DUPLICATE: push(&values, values.numbers[values.depth - 1]); break;
        case COPY: push(&values, values.numbers[values.depth - 1 - (size_t)instruction->number]); break;
        case SWAP: first = pop(&values), second = pop(&values), push(&values, first), push(&values, second); break;
        case DISCARD: pop(&values); break;
        case SLIDE: slide(instruction->number); break;
        case ADD: case SUBTRACT: case MULTIPLY: case DIVIDE: case MODULO:
            if (!calculate(instruction->kind)) return FAULT;
            break;
        case STORE: first = pop(&values), second = pop(&values), set_number(&heap, second, first); break;
        case RETRIEVE: push(&values, number_at(&heap, pop(&values))); break;
        case MARK: break;
        case CALL: push(&calls, (int64_t)next), next = instruction->target; break;
        case JUMP: next = instruction->target; break;
        case JUMP_IF_ZERO: if (pop(&values) == 0) next = instruction->target; break;
        case JUMP_IF_NEGATIVE: if (pop(&values) < 0) next = instruction->target; break;
        case RETURN:
            if (calls.depth == 0) return FAULT;
            next = (size_t)pop(&calls);
            break;
        case END: return ENDED;
        case WRITE_CHARACTER: write_byte(pop(&values)); break;
        case WRITE_NUMBER: printf("%" PRId64, pop(&values)); break;
        case READ_CHARACTER: read_to(pop(&values), false); break;
        case READ_NUMBER: if (!read_to(pop(&values), true)) return FAULT; break;
        }
    }
    return is_cut ? STILL_GOING : FAULT; /* past the last instruction */
}

int main(int argc, char **argv) {
    read_program(argc, argv);
    read_signs();
    read_instructions();
    find_targets();
    enum status status = run();
    fflush(stdout);
    if (tells_needs) {
        tell_steps();
        fprintf(stderr, " stack=%zu calls=%zu heap=%zu lowest=%" PRId64 " highest=%" PRId64 "\n", values.deepest, calls.deepest, heap.used,
            heap.lowest, heap.highest);
        fprintf(stderr, "met");
        tell_met(writes_large, "large-characters");
        fprintf(stderr, "\n");
    }
    return status;
}
