/* Piet: programs are images. This takes the text form of PPM (P3). */
#include "plain.h"

enum { WHITE = 18, BLACK = 19 }; /* below 18: three times the hue, and the lightness */
static const uint32_t shades[18] = {
    0xFFC0C0, 0xFF0000, 0xC00000, 0xFFFFC0, 0xFFFF00, 0xC0C000, 0xC0FFC0, 0x00FF00, 0x00C000, /* red, yellow, green */
    0xC0FFFF, 0x00FFFF, 0x00C0C0, 0xC0C0FF, 0x0000FF, 0x0000C0, 0xFFC0FF, 0xFF00FF, 0xC000C0, /* cyan, blue, magenta */
};

enum command {
    NOTHING, PUSH, POP, ADD, SUBTRACT, MULTIPLY, DIVIDE, MODULO, NOT, GREATER, POINTER, SWITCH, DUPLICATE, ROLL,
    IN_NUMBER, IN_CHARACTER, OUT_NUMBER, OUT_CHARACTER
};
enum { COMMANDS = OUT_CHARACTER + 1 };
static const char *const names[COMMANDS] = {
    "nothing", "push", "pop", "add", "subtract", "multiply", "divide", "mod", "not", "greater", "pointer", "switch", "duplicate", "roll",
    "in-number", "in-character", "out-number", "out-character",
};

static uint64_t width, height; /* in codels */
static uint8_t *colours;       /* of the codels, row by row */

/* A shade is one of 18, black and white are what they are, and each other colour is white. */
static uint8_t colour_of(uint32_t shade) {
    if (shade == 0) return BLACK;
    for (uint8_t k = 0; k < 18; k++)
        if (shades[k] == shade) return k;
    return WHITE;
}

/* Reading the image. */

static size_t at; /* in the text */

static bool is_blank(uint8_t byte) { return byte == ' ' || byte == '\t' || byte == '\r' || byte == '\n'; }

static void pass_blanks(void) {
    while (at < length && (is_blank(text[at]) || text[at] == '#'))
        if (text[at++] == '#')
            while (at < length && text[at] != '\n') at++;
}

/* A number of at most `most`, or refused. */
static uint64_t number_of_header(uint64_t most, const char *why) {
    uint64_t number = 0;
    pass_blanks();
    size_t begin = at;
    for (; at < length && !is_blank(text[at]) && text[at] != '#'; at++) {
        if (text[at] < '0' || text[at] > '9') refuse(why, begin);
        number = 10 * number + (text[at] - '0');
        if (number > most) refuse(why, begin);
    }
    if (at == begin) refuse(why, begin);
    return number;
}

static void read_image(void) {
    const char *header = "this is no P3 text of 255 shades";
    if (length < 2 || memcmp(text, "P3", 2) != 0) refuse(header, 0);
    at = 2;
    if (at < length && !is_blank(text[at]) && text[at] != '#') refuse(header, 0);
    uint64_t wide = number_of_header(UINT64_C(1) << 31, header), high = number_of_header(UINT64_C(1) << 31, header);
    if (wide == 0 || high == 0 || number_of_header(255, header) != 255) refuse(header, 0);
    if (wide % codel != 0 || high % codel != 0) refuse("codels don't divide the image", 0);
    width = wide / codel, height = high / codel;
    if (width * height > UINT64_C(1) << 26) refuse("too many codels", 0);
    colours = checked(malloc(width * height));
    for (uint64_t y = 0; y < high; y++)
        for (uint64_t x = 0; x < wide; x++) {
            uint32_t shade = 0;
            for (int k = 0; k < 3; k++) shade = shade << 8 | (uint32_t)number_of_header(255, "no number of 0 to 255");
            if (x % codel == 0 && y % codel == 0) colours[y / codel * width + x / codel] = colour_of(shade);
        }
    pass_blanks();
    if (at < length) refuse("something after the last pixel", at);
}

/* Blocks: neighbours of one colour. */

enum direction { RIGHT, DOWN, LEFT, UP };                              /* clockwise */
enum hand { LEFT_HAND, RIGHT_HAND };                                   /* the codel chooser, as seen along the pointer */
struct block { uint64_t size, exits[4][2]; };                          /* an exit for each direction and hand */
static struct block *blocks;
static uint32_t *block_of; /* of each codel that has a hue */

/* How far along a direction a codel lies. */
static int64_t along(enum direction direction, uint64_t codel_number) {
    int64_t x = (int64_t)(codel_number % width), y = (int64_t)(codel_number / width);
    return direction == RIGHT ? x : direction == DOWN ? y : direction == LEFT ? -x : -y;
}

/* The left hand of a direction is one turn back, the right hand one turn on. */
static enum direction beside(enum direction direction, enum hand hand) { return (direction + (hand == LEFT_HAND ? 3 : 1)) % 4; }

/* The exit is the codel furthest along the direction and, of these, furthest along the hand. */
static void take_exit(struct block *block, uint64_t here) {
    for (int direction = 0; direction < 4; direction++)
        for (int hand = 0; hand < 2; hand++) {
            uint64_t *exit = &block->exits[direction][hand];
            int64_t further = along(direction, here) - along(direction, *exit);
            enum direction side = beside(direction, hand);
            if (further > 0 || (further == 0 && along(side, here) > along(side, *exit))) *exit = here;
        }
}

/* The codel beside another one; false where that is outside. */
static bool step_along(enum direction direction, uint64_t here, uint64_t *next) {
    uint64_t x = here % width, y = here / width;
    if (direction == RIGHT ? x + 1 == width : direction == DOWN ? y + 1 == height : direction == LEFT ? x == 0 : y == 0) return false;
    *next = direction == RIGHT ? here + 1 : direction == DOWN ? here + width : direction == LEFT ? here - 1 : here - width;
    return true;
}

static void find_blocks(void) {
    uint64_t *waiting = checked(malloc(width * height * sizeof *waiting));
    uint32_t count = 0, room = 0;
    block_of = checked(malloc(width * height * sizeof *block_of));
    memset(block_of, 0xFF, width * height * sizeof *block_of);
    for (uint64_t first = 0; first < width * height; first++) {
        if (colours[first] >= WHITE || block_of[first] != UINT32_MAX) continue;
        if (count == room) blocks = checked(realloc(blocks, (room = 2 * room + 64) * sizeof *blocks));
        struct block *block = &blocks[count];
        block->size = 0;
        for (int k = 0; k < 8; k++) block->exits[k / 2][k % 2] = first;
        uint64_t left = 0, next;
        waiting[left++] = first;
        block_of[first] = count;
        while (left > 0) {
            uint64_t here = waiting[--left];
            block->size++;
            take_exit(block, here);
            for (int direction = 0; direction < 4; direction++)
                if (step_along(direction, here, &next) && colours[next] == colours[first] && block_of[next] == UINT32_MAX) {
                    block_of[next] = count;
                    waiting[left++] = next;
                }
        }
        count++;
    }
    free(waiting);
}

/* A run. */

static struct stack values;
static enum direction pointer = RIGHT;
static enum hand hand = LEFT_HAND;
static bool met_command[COMMANDS], met_too_few, met_too_deep, met_negative_depth, met_divisor_zero, met_attempts, met_slides, met_slide_ends;

/* Modulo `turns`, also of a negative number. */
static uint64_t turned(int64_t number, int64_t turns) { return (uint64_t)((number % turns + turns) % turns); }

/* One roll buries the top value; a negative number of rolls goes the other way. Ignored where the depth is none. */
static void roll(void) {
    int64_t rolls = values.numbers[values.depth - 1], deep = values.numbers[values.depth - 2];
    if (deep < 0) met_negative_depth = true;
    if (deep >= 0 && (uint64_t)deep > values.depth - 2) met_too_deep = true;
    if (deep < 0 || (uint64_t)deep > values.depth - 2) return;
    values.depth -= 2;
    if (deep < 2) return;
    int64_t *lowest = values.numbers + values.depth - deep;
    int64_t *old = checked(malloc((size_t)deep * sizeof *old));
    memcpy(old, lowest, (size_t)deep * sizeof *old);
    for (uint64_t k = 0; k < (uint64_t)deep; k++) lowest[(k + turned(rolls, deep)) % (uint64_t)deep] = old[k];
    free(old);
}

/* Of the second value and the top. False where the result is outside 64 bits; then nothing has changed. */
static bool calculate(enum command command) {
    int64_t right = values.numbers[values.depth - 1], left = values.numbers[values.depth - 2], result = 0, other = 0;
    bool fits = true;
    if ((command == DIVIDE || command == MODULO) && right == 0) met_divisor_zero = true;
    if ((command == DIVIDE || command == MODULO) && right == 0) return true; /* ignored, and both stay */
    switch (command) {
    case ADD: fits = !__builtin_add_overflow(left, right, &result); break;
    case SUBTRACT: fits = !__builtin_sub_overflow(left, right, &result); break;
    case MULTIPLY: fits = !__builtin_mul_overflow(left, right, &result); break;
    case DIVIDE: fits = floored(left, right, &result, &other); break;
    case MODULO: floored(left, right, &other, &result); break;
    default: result = left > right;
    }
    if (!fits) return false;
    values.depth -= 2;
    push(&values, result);
    return true;
}

static uint64_t operands(enum command command) {
    switch (command) {
    case NOTHING: case PUSH: case IN_NUMBER: case IN_CHARACTER: return 0;
    case POP: case NOT: case POINTER: case SWITCH: case DUPLICATE: case OUT_NUMBER: case OUT_CHARACTER: return 1;
    default: return 2;
    }
}

/* False where a value would be outside 64 bits. */
static bool execute(enum command command, uint64_t size) {
    int64_t number;
    if (values.depth < operands(command)) return met_too_few = true; /* ignored */
    met_command[command] = true;
    switch (command) {
    case NOTHING: break;
    case PUSH: push(&values, (int64_t)size); break;
    case POP: pop(&values); break;
    case NOT: push(&values, pop(&values) == 0); break;
    case POINTER: pointer = (pointer + turned(pop(&values), 4)) % 4; break;
    case SWITCH: hand = (hand + turned(pop(&values), 2)) % 2; break;
    case DUPLICATE: push(&values, values.numbers[values.depth - 1]); break;
    case ROLL: roll(); break;
    case IN_NUMBER:
        if (!next_number(&number)) return false;
        push(&values, number);
        break;
    case IN_CHARACTER: push(&values, next_byte()); break;
    case OUT_NUMBER: printf("%" PRId64, pop(&values)); break;
    case OUT_CHARACTER: write_byte(pop(&values)); break;
    default: return calculate(command);
    }
    return true;
}

static void toggle_hand(void) { hand = 1 - hand; }
static void turn_pointer(void) { pointer = (pointer + 1) % 4; }

/* Over white to the first codel of a colour. False where it stops twice at one codel with one direction. */
static bool slide(uint64_t *here) {
    struct table stops = { 0 };
    uint64_t next;
    met_slides = true;
    for (;;) {
        while (step_along(pointer, *here, &next) && colours[next] == WHITE) *here = next;
        if (step_along(pointer, *here, &next) && colours[next] < WHITE) break;
        int64_t stop = (int64_t)(4 * *here + pointer);
        if (number_at(&stops, stop) == 1) return free(stops.slots), met_slide_ends = true, false;
        set_number(&stops, stop, 1);
        toggle_hand();
        turn_pointer();
    }
    free(stops.slots);
    *here = next;
    return true;
}

/* From a block to the next one, in up to eight attempts. */
static enum status leave(uint64_t *here) {
    const struct block *block = &blocks[block_of[*here]];
    for (int attempt = 1; attempt <= 8; attempt++) {
        uint64_t exit = block->exits[pointer][hand], next;
        if (step_along(pointer, exit, &next) && colours[next] == WHITE) {
            *here = next;
            return slide(here) ? STILL_GOING : ENDED;
        }
        if (step_along(pointer, exit, &next) && colours[next] != BLACK) {
            int hues = (colours[next] / 3 - colours[*here] / 3 + 6) % 6, shades_darker = (colours[next] % 3 - colours[*here] % 3 + 3) % 3;
            if (!execute(3 * hues + shades_darker, block->size)) return FAULT;
            *here = next;
            return STILL_GOING;
        }
        met_attempts = true;
        if (attempt % 2 == 1) toggle_hand();
        else if (attempt < 8) turn_pointer();
    }
    return ENDED;
}

static enum status run(void) {
    uint64_t here = 0;
    enum status status = colours[here] == BLACK ? ENDED : STILL_GOING;
    while (status == STILL_GOING && steps < limit) {
        steps++;
        if (colours[here] == WHITE) status = slide(&here) ? STILL_GOING : ENDED;
        else status = leave(&here);
    }
    return status;
}

static void tell_all_met(void) {
    fprintf(stderr, "met");
    for (int k = 0; k < COMMANDS; k++) tell_met(met_command[k], names[k]);
    tell_met(met_too_few, "too-few");
    tell_met(met_too_deep, "roll-too-deep");
    tell_met(met_negative_depth, "roll-negative-depth");
    tell_met(met_divisor_zero, "division-by-zero");
    tell_met(met_attempts, "attempts");
    tell_met(met_slides, "slides");
    tell_met(met_slide_ends, "slide-ends");
    tell_met(writes_large, "large-characters");
    fprintf(stderr, "\n");
}

int main(int argc, char **argv) {
    read_program(argc, argv);
    read_image();
    find_blocks();
    enum status status = run();
    fflush(stdout);
    if (tells_needs) tell_steps(), fprintf(stderr, " codels=%" PRIu64 " stack=%zu\n", width * height, values.deepest), tell_all_met();
    return status;
}
