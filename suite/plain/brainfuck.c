/* Brainfuck: eight commands on a tape of bytes. */
#include "plain.h"

static uint8_t *commands; /* the program without its comments */
static size_t count;
static size_t *partner; /* of each bracket, the place of the other one of its pair */

/* The first ] without a partner is refused; where there is none, the first [ without one. */
static void read_commands(void) {
    size_t *open = checked(malloc((length + 1) * sizeof *open)), *places = checked(malloc((length + 1) * sizeof *places)), depth = 0;
    commands = checked(malloc(length + 1));
    partner = checked(calloc(length + 1, sizeof *partner));
    for (size_t at = 0; at < length; at++) {
        if (text[at] == 0 || strchr("><+-.,[]", text[at]) == NULL) continue; /* a comment */
        commands[count] = text[at];
        places[count] = at;
        if (text[at] == '[') open[depth++] = count;
        if (text[at] == ']') {
            if (depth == 0) refuse("a ] without a [", at);
            partner[count] = open[--depth];
            partner[partner[count]] = count;
        }
        count++;
    }
    if (depth > 0) refuse("a [ without a ]", places[open[0]]);
    free(open);
    free(places);
}

static uint8_t *tape;
static size_t cells, head, rightmost;

/* There is always another cell to the right, and it holds 0. */
static void move_right(void) {
    head++;
    if (head == cells) {
        tape = checked(realloc(tape, 2 * cells));
        memset(tape + cells, 0, cells);
        cells *= 2;
    }
    if (head > rightmost) rightmost = head;
}

static enum status run(void) {
    for (size_t place = 0; place < count; place++) {
        if (steps == limit) return STILL_GOING;
        steps++;
        switch (commands[place]) {
        case '>': move_right(); break;
        case '<':
            if (head == 0) return FAULT;
            head--;
            break;
        case '+': tape[head]++; break;
        case '-': tape[head]--; break;
        case '.': write_byte(tape[head]); break;
        case ',': tape[head] = next_byte(); break;
        case '[': if (tape[head] == 0) place = partner[place]; break;
        case ']': if (tape[head] != 0) place = partner[place]; break;
        }
    }
    return ENDED;
}

int main(int argc, char **argv) {
    read_program(argc, argv);
    read_commands();
    cells = 4096;
    tape = checked(calloc(cells, 1));
    enum status status = run();
    fflush(stdout);
    if (tells_needs) tell_steps(), fprintf(stderr, " tape=%zu\n", rightmost + 1);
    return status;
}
