/* What the five interpreters share: the words of their command line, the bytes of the program, a table from addresses to
   numbers, and how a run is told.

   Each is used as   NAME [--needs] [--steps N] [--codel S] PROGRAM   (--codel in Piet alone), reads standard input and
   writes standard output. The status says how the run ended; --needs tells on standard error what it needed. */
#include <inttypes.h>
#include <stdbool.h>
#include <stdint.h>
#include <stdio.h>
#include <stdlib.h>
#include <string.h>

enum status { ENDED = 0, REFUSED = 1, USAGE = 2, STILL_GOING = 3, FAULT = 4, NO_FILE = 5, NO_MEMORY = 9 };

static const char *path;
static uint64_t limit = UINT64_MAX; /* of steps */
static uint64_t steps;              /* done so far */
static uint32_t codel = 1;          /* pixels along a side of a codel, in Piet */
static uint64_t past_end;           /* bytes that were asked for past the end of the input */
static bool tells_needs;
static uint8_t *text; /* the program */
static size_t length; /* of the program, in bytes */

static void *checked(void *memory) {
    if (memory == NULL) {
        fflush(stdout);
        fprintf(stderr, "out of memory\n");
        exit(NO_MEMORY);
    }
    return memory;
}

/* A program that the language doesn't have: nothing of it is run. */
static void refuse(const char *why, uint64_t place) {
    fprintf(stderr, "%s: %s at %" PRIu64 "\n", path, why, place);
    exit(REFUSED);
}

static void read_words(int argc, char **argv) {
    for (int k = 1; k < argc; k++) {
        if (strcmp(argv[k], "--needs") == 0) tells_needs = true;
        else if (strcmp(argv[k], "--steps") == 0 && k + 1 < argc) limit = strtoull(argv[++k], NULL, 10);
        else if (strcmp(argv[k], "--codel") == 0 && k + 1 < argc) codel = (uint32_t)strtoul(argv[++k], NULL, 10);
        else if (path == NULL && argv[k][0] != '-') path = argv[k];
        else path = "", k = argc;
    }
    if (path == NULL || *path == 0 || codel == 0) {
        fprintf(stderr, "usage: %s [--needs] [--steps N] [--codel S] PROGRAM\n", argv[0]);
        exit(USAGE);
    }
}

static void read_program(int argc, char **argv) {
    read_words(argc, argv);
    FILE *file = fopen(path, "rb");
    size_t room = 4096, got;
    if (file == NULL) {
        fprintf(stderr, "cannot read %s\n", path);
        exit(NO_FILE);
    }
    text = checked(malloc(room));
    while ((got = fread(text + length, 1, room - length, file)) > 0) {
        length += got;
        if (length == room) text = checked(realloc(text, room *= 2));
    }
    fclose(file);
}

/* The next byte of the input. Past its end it is 0. */
static uint8_t next_byte(void) {
    int byte = getchar();
    if (byte == EOF) past_end++;
    return byte == EOF ? 0 : (uint8_t)byte;
}

static bool writes_large; /* a number outside 0 to 255 was written as a character */

/* A number is written as its remainder by 256. */
static void write_byte(int64_t number) {
    if (number < 0 || number > 255) writes_large = true;
    putchar((int)(uint8_t)number);
}

static bool is_cut; /* the limit of steps was reached within a number that is read */

/* A number of the input: blanks and line feeds, perhaps a sign, digits, and the first other byte, which is taken as well.
   No digits give 0. Each byte taken is a step. False where a digit leads outside signed 64 bits. */
static bool next_number(int64_t *number) {
    bool signed_yet = false, digits_yet = false, negative = false;
    *number = 0;
    for (;;) {
        if (steps == limit) return is_cut = true;
        steps++;
        uint8_t byte = next_byte();
        bool is_blank = byte == ' ' || byte == '\t' || byte == '\r' || byte == '\n';
        if (is_blank && !signed_yet && !digits_yet) continue;
        if ((byte == '+' || byte == '-') && !signed_yet && !digits_yet) {
            signed_yet = true;
            negative = byte == '-';
            continue;
        }
        if (byte < '0' || byte > '9') return true;
        digits_yet = true;
        int64_t digit = byte - '0';
        if (__builtin_mul_overflow(*number, 10, number)) return false;
        if (__builtin_add_overflow(*number, negative ? -digit : digit, number)) return false;
    }
}

/* The line of --needs begins with these. */
static void tell_steps(void) { fprintf(stderr, "needs steps=%" PRIu64 " past_end=%" PRIu64, steps, past_end); }

/* A further line of --needs is "met" and the names of what the run came to. */
static void tell_met(bool is_met, const char *name) {
    if (is_met) fprintf(stderr, " %s", name);
}

/* Numbers by addresses of any size; an address that was never given one has 0. */
struct slot { int64_t address, number; bool is_used; };
struct table { struct slot *slots; size_t room, used; int64_t lowest, highest; };

static struct slot *slot_of(struct table *table, int64_t address) {
    size_t at = (size_t)((uint64_t)address * UINT64_C(0x9E3779B97F4A7C15) >> 20) & (table->room - 1);
    while (table->slots[at].is_used && table->slots[at].address != address) at = (at + 1) & (table->room - 1);
    return &table->slots[at];
}

static int64_t number_at(struct table *table, int64_t address) {
    return table->room == 0 ? 0 : slot_of(table, address)->number;
}

static void set_number(struct table *table, int64_t address, int64_t number) {
    if (2 * table->used >= table->room) {
        struct table larger = *table;
        larger.room = table->room == 0 ? 1024 : 2 * table->room;
        larger.slots = checked(calloc(larger.room, sizeof *larger.slots));
        for (size_t k = 0; k < table->room; k++)
            if (table->slots[k].is_used) *slot_of(&larger, table->slots[k].address) = table->slots[k];
        free(table->slots);
        *table = larger;
    }
    struct slot *slot = slot_of(table, address);
    if (!slot->is_used) {
        if (table->used == 0 || address < table->lowest) table->lowest = address;
        if (table->used == 0 || address > table->highest) table->highest = address;
        table->used++;
    }
    *slot = (struct slot){ address, number, true };
}

/* A stack of signed 64-bit numbers, which remembers how deep it was. */
struct stack { int64_t *numbers; size_t depth, deepest, room; };

static void push(struct stack *stack, int64_t number) {
    if (stack->depth == stack->room) {
        stack->room = stack->room == 0 ? 1024 : 2 * stack->room;
        stack->numbers = checked(realloc(stack->numbers, stack->room * sizeof *stack->numbers));
    }
    stack->numbers[stack->depth++] = number;
    if (stack->depth > stack->deepest) stack->deepest = stack->depth;
}

static int64_t pop(struct stack *stack) { return stack->numbers[--stack->depth]; }

/* Rounded to the lower number, and what is left over, which has the divisor's sign. The divisor isn't 0. False outside 64 bits. */
static bool floored(int64_t number, int64_t divisor, int64_t *quotient, int64_t *remainder) {
    if (number == INT64_MIN && divisor == -1) {
        *remainder = 0;
        return false;
    }
    *quotient = number / divisor;
    *remainder = number % divisor;
    if (*remainder != 0 && (*remainder < 0) != (divisor < 0)) {
        *quotient -= 1;
        *remainder += divisor;
    }
    return true;
}
