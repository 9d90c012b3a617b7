/* SUBLEQ: one instruction, "subtract, and branch where the result is at most 0". */
#include "plain.h"

enum { NEAR = 1 << 24 }; /* cells below are kept in an array, all others in a table */
static int64_t *near;
static size_t near_count;
static struct table far;
static int64_t highest; /* cell that was named */
static int64_t *loaded; /* what the text gave to its cells */
static size_t loaded_count;
static bool met_own_code, met_input, met_output, met_port_jumps;

static int64_t cell(int64_t address) {
    if (address > highest) highest = address;
    if (address >= NEAR) return number_at(&far, address);
    return (size_t)address < near_count ? near[address] : 0;
}

static void set_cell(int64_t address, int64_t number) {
    if (address > highest) highest = address;
    if (address >= NEAR) {
        set_number(&far, address, number);
        return;
    }
    if ((size_t)address >= near_count) {
        size_t count = 2 * (size_t)address + 1024;
        near = checked(realloc(near, count * sizeof *near));
        memset(near + near_count, 0, (count - near_count) * sizeof *near);
        near_count = count;
    }
    near[address] = number;
}

static bool is_separator(uint8_t byte) { return byte == ' ' || byte == '\t' || byte == '\r' || byte == '\n'; }

/* Decimal numbers, perhaps with a minus, parted by blanks and line feeds: the cells from 0 on. */
static void read_cells(void) {
    int64_t address = 0;
    for (size_t at = 0; at < length;) {
        if (is_separator(text[at])) {
            at++;
            continue;
        }
        size_t begin = at;
        bool negative = text[at] == '-', fits = true;
        int64_t number = 0;
        if (negative) at++;
        if (at == length || is_separator(text[at])) refuse("no number", begin);
        for (; at < length && !is_separator(text[at]); at++) {
            int64_t digit = text[at] - '0';
            if (digit < 0 || digit > 9) refuse("no number", begin);
            fits = fits && !__builtin_mul_overflow(number, 10, &number);
            fits = fits && !__builtin_add_overflow(number, negative ? -digit : digit, &number);
        }
        if (!fits) refuse("a number outside 64 bits", begin);
        set_cell(address++, number);
    }
    loaded_count = (size_t)address;
    loaded = checked(malloc((loaded_count + 1) * sizeof *loaded));
    for (size_t k = 0; k < loaded_count; k++) loaded[k] = cell((int64_t)k);
}

/* Whether a cell of an instruction isn't what the text gave to it, which is 0 past the text. */
static bool is_changed(int64_t address, int64_t number) { return number != ((size_t)address < loaded_count ? loaded[address] : 0); }

static void tell_all_met(void) {
    fprintf(stderr, "met");
    tell_met(met_own_code, "own-code");
    tell_met(met_input, "input");
    tell_met(met_output, "output");
    tell_met(met_port_jumps, "port-jumps");
    tell_met(highest >= (int64_t)loaded_count, "past-the-text");
    fprintf(stderr, "\n");
}

static enum status run(void) {
    int64_t place = 0;
    while (place >= 0) {
        if (place > INT64_MAX - 3) return FAULT;
        if (steps == limit) return STILL_GOING;
        steps++;
        int64_t a = cell(place), b = cell(place + 1), c = cell(place + 2), difference;
        if (is_changed(place, a) || is_changed(place + 1, b) || is_changed(place + 2, c)) met_own_code = true;
        if ((a == -1 || b == -1) && c != place + 3) met_port_jumps = true;
        if (a == -1 && b >= 0) {
            met_input = true;
            set_cell(b, next_byte());
            place += 3;
        } else if (b == -1 && a >= 0) {
            met_output = true;
            write_byte(cell(a));
            place += 3;
        } else if (a < 0 || b < 0) {
            return FAULT;
        } else {
            if (__builtin_sub_overflow(cell(b), cell(a), &difference)) return FAULT;
            set_cell(b, difference);
            place = difference <= 0 ? c : place + 3;
        }
    }
    return ENDED;
}

int main(int argc, char **argv) {
    read_program(argc, argv);
    read_cells();
    highest = -1;
    enum status status = run();
    fflush(stdout);
    if (tells_needs) tell_steps(), fprintf(stderr, " cells=%" PRId64 "\n", highest + 1), tell_all_met();
    return status;
}
