/* WebAssembly 1.0 with numbers of 32 bits, functions, one memory and globals. The host has env.getchar and env.putchar. */
#include "plain.h"

enum { PAGE = 65536, MOST_PAGES = 1024, MOST_CALLS = 4096, ONE_VALUE = 0x7F, NO_VALUE = 0x40 };

enum opcode {
    UNREACHABLE = 0x00, NOP, BLOCK, LOOP, IF, ELSE, END = 0x0B, BR, BR_IF, BR_TABLE, RETURN, CALL,
    DROP = 0x1A, SELECT, LOCAL_GET = 0x20, LOCAL_SET, LOCAL_TEE, GLOBAL_GET, GLOBAL_SET,
    LOAD = 0x28, LOAD8_S = 0x2C, LOAD8_U, LOAD16_S, LOAD16_U, STORE = 0x36, STORE8 = 0x3A, STORE16,
    MEMORY_SIZE = 0x3F, MEMORY_GROW, CONST,
    EQZ = 0x45, EQ, NE, LT_S, LT_U, GT_S, GT_U, LE_S, LE_U, GE_S, GE_U,
    CLZ = 0x67, CTZ, POPCNT, ADD, SUB, MUL, DIV_S, DIV_U, REM_S, REM_U, AND, OR, XOR, SHL, SHR_S, SHR_U, ROTL, ROTR
};

struct type { uint32_t params, results; };
struct instruction {
    uint8_t opcode;
    uint32_t number;       /* a constant, an index, an offset, or how many targets there are beside the default */
    uint32_t align, *targets;
    bool gives;            /* a block gives a value */
    uint32_t end, other;   /* of a block: its end, and where an if without its condition goes; of an else: its end */
};
struct function { uint32_t type, locals, count; struct instruction *code; int host; /* 0 none, 1 getchar, 2 putchar */ };
struct global { bool is_variable; uint32_t number; };
struct export { const uint8_t *name; uint32_t size, index; uint8_t sort; };
struct segment { uint32_t offset, size; const uint8_t *bytes; };

static struct type *types;
static struct function *functions;
static struct global *globals;
static struct export *exports;
static struct segment *segments;
static uint32_t type_count, function_count, import_count, global_count, export_count, segment_count, body_count;
static bool has_memory, has_most, has_start;
static uint32_t pages, most_pages, start;
static const char *wrong_import;

/* Reading. */

static size_t at, end; /* the place, and where the file, section or body ends */

static uint8_t byte_here(void) {
    if (at >= end) refuse("Malformed: a byte is missing", at);
    return text[at++];
}

static uint32_t number_here(void) {
    uint64_t number = 0;
    for (int k = 0; k < 5; k++) {
        uint8_t byte = byte_here();
        number |= (uint64_t)(byte & 127) << (7 * k);
        if (byte < 128) {
            if (number > UINT32_MAX) refuse("Malformed: a number of more than 32 bits", at - 1);
            return (uint32_t)number;
        }
    }
    refuse("Malformed: a number of more than five bytes", at - 1);
    return 0;
}

static uint32_t signed_here(void) {
    uint64_t number = 0;
    for (int k = 0; k < 5; k++) {
        uint8_t byte = byte_here();
        number |= (uint64_t)(byte & 127) << (7 * k);
        if (byte >= 128) continue;
        if (k == 4 && (byte & 0x78) != 0 && (byte & 0x78) != 0x78) refuse("Malformed: a number of more than 32 bits", at - 1);
        if (k < 4 && (byte & 64) != 0) number |= ~UINT64_C(0) << (7 * k + 7);
        return (uint32_t)number;
    }
    refuse("Malformed: a number of more than five bytes", at - 1);
    return 0;
}

static uint32_t count_here(void) {
    size_t begin = at;
    uint32_t count = number_here();
    if (count > 1 << 20) refuse("TooLarge", begin);
    return count;
}

static void wanted(uint8_t byte) {
    if (byte_here() != byte) refuse("Malformed: another byte is wanted", at - 1);
}

static uint8_t flag_here(void) {
    uint8_t flag = byte_here();
    if (flag > 1) refuse("Malformed: a flag is 0 or 1", at - 1);
    return flag;
}

static void value_type_here(void) {
    uint8_t byte = byte_here();
    if (byte >= 0x7C && byte <= 0x7E) refuse("Unsupported: a type other than i32", at - 1);
    if (byte != ONE_VALUE) refuse("Malformed: no type", at - 1);
}

/* How many bytes a character of UTF-8 has here, or 0. */
static uint32_t utf8_size(const uint8_t *byte, uint32_t left) {
    uint32_t size = byte[0] < 0x80 ? 1 : byte[0] < 0xC2 ? 0 : byte[0] < 0xE0 ? 2 : byte[0] < 0xF0 ? 3 : byte[0] < 0xF5 ? 4 : 0;
    if (size == 0 || size > left) return 0;
    for (uint32_t k = 1; k < size; k++)
        if ((byte[k] & 0xC0) != 0x80) return 0;
    if (byte[0] == 0xE0 && byte[1] < 0xA0) return 0;
    if (byte[0] == 0xED && byte[1] >= 0xA0) return 0; /* half of a pair */
    if (byte[0] == 0xF0 && byte[1] < 0x90) return 0;
    if (byte[0] == 0xF4 && byte[1] >= 0x90) return 0;
    return size;
}

static const uint8_t *name_here(uint32_t *size) {
    *size = number_here();
    if (*size > end - at) refuse("Malformed: a byte is missing", end);
    const uint8_t *name = text + at;
    for (uint32_t k = 0, step; k < *size; k += step)
        if ((step = utf8_size(name + k, *size - k)) == 0) refuse("Malformed: a name is no UTF-8", at);
    at += *size;
    return name;
}

static void read_types(void) {
    type_count = count_here();
    types = checked(calloc(type_count + 1, sizeof *types));
    for (uint32_t k = 0; k < type_count; k++) {
        wanted(0x60);
        types[k].params = count_here();
        for (uint32_t n = 0; n < types[k].params; n++) value_type_here();
        types[k].results = count_here();
        for (uint32_t n = 0; n < types[k].results; n++) value_type_here();
    }
}

static bool is_name(const uint8_t *name, uint32_t size, const char *wanted_name) {
    return size == strlen(wanted_name) && memcmp(name, wanted_name, size) == 0;
}

static void read_imports(void) {
    import_count = function_count = count_here();
    functions = checked(calloc(import_count + 1, sizeof *functions));
    for (uint32_t k = 0; k < import_count; k++) {
        uint32_t size, other;
        const uint8_t *module = name_here(&size), *name = name_here(&other);
        uint8_t sort = byte_here();
        if (sort > 3) refuse("Malformed: no sort of import", at - 1);
        if (sort > 0) refuse("Unsupported: an import that is no function", at - 1);
        functions[k].type = number_here();
        if (is_name(module, size, "env") && is_name(name, other, "getchar")) functions[k].host = 1;
        else if (is_name(module, size, "env") && is_name(name, other, "putchar")) functions[k].host = 2;
        else wrong_import = "an import that the host doesn't have";
    }
}

static void read_functions(void) {
    uint32_t count = count_here();
    functions = checked(realloc(functions, (function_count + count + 1) * sizeof *functions));
    for (uint32_t k = 0; k < count; k++) functions[function_count++] = (struct function){ .type = number_here() };
}

static void read_memories(void) {
    size_t begin = at;
    uint32_t count = number_here();
    if (count > 1) refuse("Unsupported: more than one memory", begin);
    if (count == 0) return;
    has_memory = true;
    has_most = flag_here() == 1;
    begin = at;
    pages = number_here();
    if (pages > MOST_PAGES) refuse("TooLarge", begin);
    if (has_most) most_pages = number_here();
}

static uint32_t initial_here(void) {
    uint8_t opcode = byte_here();
    if (opcode != CONST) refuse("Unsupported or Malformed: an initial value that is no i32.const", at - 1);
    uint32_t number = signed_here();
    if (byte_here() != END) refuse("Unsupported or Malformed: more than one i32.const", at - 1);
    return number;
}

static void read_globals(void) {
    global_count = count_here();
    globals = checked(calloc(global_count + 1, sizeof *globals));
    for (uint32_t k = 0; k < global_count; k++) {
        value_type_here();
        globals[k].is_variable = flag_here() == 1;
        globals[k].number = initial_here();
    }
}

static void read_exports(void) {
    export_count = count_here();
    exports = checked(calloc(export_count + 1, sizeof *exports));
    for (uint32_t k = 0; k < export_count; k++) {
        exports[k].name = name_here(&exports[k].size);
        exports[k].sort = byte_here();
        if (exports[k].sort > 3) refuse("Malformed: no sort of export", at - 1);
        if (exports[k].sort == 1) refuse("Unsupported: a table", at - 1);
        exports[k].index = number_here();
    }
}

static void read_segments(void) {
    segment_count = count_here();
    segments = checked(calloc(segment_count + 1, sizeof *segments));
    for (uint32_t k = 0; k < segment_count; k++) {
        size_t begin = at;
        if (number_here() != 0) refuse("Unsupported: another memory", begin);
        segments[k].offset = initial_here();
        segments[k].size = number_here();
        if (segments[k].size > end - at) refuse("Malformed: a byte is missing", end);
        segments[k].bytes = text + at;
        at += segments[k].size;
    }
}

static bool is_access(uint8_t opcode) {
    return opcode == LOAD || (opcode >= LOAD8_S && opcode <= LOAD16_U) || opcode == STORE || opcode == STORE8 || opcode == STORE16;
}

static void block_type_here(struct instruction *instruction) {
    uint8_t byte = byte_here();
    if (byte >= 0x7C && byte <= 0x7E) refuse("Unsupported: a type other than i32", at - 1);
    if (byte != ONE_VALUE && byte != NO_VALUE) refuse("Malformed: no type of a block", at - 1);
    instruction->gives = byte == ONE_VALUE;
}

static void read_operands(struct instruction *instruction) {
    uint8_t opcode = instruction->opcode;
    if (opcode == BLOCK || opcode == LOOP || opcode == IF) block_type_here(instruction);
    else if (opcode == BR || opcode == BR_IF || opcode == CALL) instruction->number = number_here();
    else if (opcode >= LOCAL_GET && opcode <= GLOBAL_SET) instruction->number = number_here();
    else if (opcode == CONST) instruction->number = signed_here();
    else if (opcode == MEMORY_SIZE || opcode == MEMORY_GROW) wanted(0);
    else if (is_access(opcode)) {
        instruction->align = number_here();
        instruction->number = number_here();
    } else if (opcode == BR_TABLE) {
        instruction->number = count_here();
        instruction->targets = checked(malloc((instruction->number + 1) * sizeof(uint32_t)));
        for (uint32_t k = 0; k <= instruction->number; k++) instruction->targets[k] = number_here();
    } else {
        bool is_known = opcode <= NOP || opcode == RETURN || opcode == DROP || opcode == SELECT;
        is_known = is_known || opcode == ELSE || opcode == END;
        is_known = is_known || (opcode >= EQZ && opcode <= GE_U) || (opcode >= CLZ && opcode <= ROTR);
        if (!is_known) refuse("Unsupported or Malformed: no opcode of this machine", at - 1);
    }
}

/* The instructions of a body, with the places to which its blocks lead. */
static void read_code(struct function *function) {
    uint32_t room = 64, deep = 0, *open = checked(malloc((end - at + 1) * sizeof *open));
    function->code = checked(malloc(room * sizeof *function->code));
    for (bool is_going = true; is_going;) {
        if (function->count == room) function->code = checked(realloc(function->code, (room *= 2) * sizeof *function->code));
        struct instruction *instruction = &function->code[function->count];
        *instruction = (struct instruction){ .opcode = byte_here() };
        read_operands(instruction);
        if (instruction->opcode == BLOCK || instruction->opcode == LOOP || instruction->opcode == IF) open[deep++] = function->count;
        if (instruction->opcode == ELSE) {
            struct instruction *opener = deep == 0 ? NULL : &function->code[open[deep - 1]];
            if (opener == NULL || opener->opcode != IF || opener->other != 0) refuse("Malformed: an else outside an if", at - 1);
            opener->other = function->count + 1;
        }
        if (instruction->opcode == END && deep == 0) is_going = false;
        else if (instruction->opcode == END) {
            struct instruction *opener = &function->code[open[--deep]];
            opener->end = function->count;
            if (opener->other != 0) function->code[opener->other - 1].end = function->count;
        }
        function->count++;
    }
    free(open);
}

static void read_body(struct function *function) {
    size_t section_end = end, size = number_here();
    if (size < end - at) end = at + size;
    uint32_t groups = number_here(), params = function->type < type_count ? types[function->type].params : 0;
    uint64_t locals = 0;
    for (uint32_t k = 0; k < groups; k++) {
        size_t begin = at;
        locals += number_here();
        if (locals + params > 1 << 16) refuse("TooLarge", begin);
        value_type_here();
    }
    function->locals = (uint32_t)locals;
    read_code(function);
    if (at != end) refuse("Malformed: more than the body", at);
    end = section_end;
}

static void read_bodies(void) {
    size_t begin = at;
    body_count = number_here();
    if (body_count != function_count - import_count) refuse("Malformed: not as many bodies as functions", begin);
    for (uint32_t k = import_count; k < function_count; k++) read_body(&functions[k]);
}

static void read_section(uint8_t section) {
    switch (section) {
    case 0: { uint32_t size; name_here(&size); at = end; break; }
    case 1: read_types(); break;
    case 2: read_imports(); break;
    case 3: read_functions(); break;
    case 5: read_memories(); break;
    case 6: read_globals(); break;
    case 7: read_exports(); break;
    case 8: has_start = true; start = number_here(); break;
    case 10: read_bodies(); break;
    case 11: read_segments(); break;
    }
}

static void read_module(void) {
    uint8_t last = 0;
    end = length;
    for (size_t k = 0; k < 8; k++) wanted((uint8_t)"\0asm\1\0\0\0"[k]);
    while (at < length) {
        uint8_t section = byte_here();
        if (section != 0) {
            if (section > 11 || section <= last) refuse("Malformed: a section that can't come here", at - 1);
            if (section == 4 || section == 9) refuse("Unsupported: tables", at - 1);
            if (last < 10 && section == 11 && function_count > import_count) refuse("Malformed: functions without bodies", at - 1);
            last = section;
        }
        uint32_t size = number_here();
        end = size < length - at ? at + size : length;
        bool is_whole = size == end - at;
        read_section(section);
        if (at != end || !is_whole) refuse("Malformed: a section of another size", at);
        end = length;
    }
    if (body_count != function_count - import_count) refuse("Malformed: functions without bodies", at);
}

/* Validation, as the standard's appendix does it. All values are i32, so the number of values stands for their types. */

struct frame { uint8_t opcode; uint32_t height, ends, branches; bool is_unreachable; }; /* how many values its end, and a branch, has */
static struct frame *frames;
static uint32_t frame_count, depth;
static uint32_t checked_body;

static void invalid(void) { refuse("Invalid: function", checked_body); }
static void require(bool holds) { if (!holds) invalid(); }

static void take(uint32_t count) {
    struct frame *frame = &frames[frame_count - 1];
    for (; count > 0; count--) {
        if (depth > frame->height) depth--;
        else require(frame->is_unreachable);
    }
}

static void rest_is_unreachable(void) {
    depth = frames[frame_count - 1].height;
    frames[frame_count - 1].is_unreachable = true;
}

static uint32_t values_of_label(uint32_t label) {
    require(label < frame_count);
    return frames[frame_count - 1 - label].branches;
}

static void open_frame(uint8_t opcode, uint32_t ends) {
    frames[frame_count++] = (struct frame){ opcode, depth, ends, opcode == LOOP ? 0 : ends, false };
}

/* Exactly the values of the block are left at its end. */
static struct frame close_frame(void) {
    struct frame frame = frames[frame_count - 1];
    take(frame.ends);
    require(depth == frame.height);
    frame_count--;
    return frame;
}

static void check_end(const struct instruction *instruction) {
    struct frame frame = close_frame();
    if (instruction->opcode == ELSE) {
        open_frame(ELSE, frame.ends);
    } else {
        require(frame.opcode != IF || frame.ends == 0); /* an if without else gives nothing */
        depth += frame.ends;
    }
}

static void check_branch(const struct instruction *instruction) {
    uint32_t count;
    switch (instruction->opcode) {
    case BR: take(values_of_label(instruction->number)); break;
    case BR_IF:
        take(1);
        count = values_of_label(instruction->number);
        take(count), depth += count;
        return;
    case BR_TABLE:
        take(1);
        count = values_of_label(instruction->targets[instruction->number]);
        for (uint32_t k = 0; k < instruction->number; k++) require(values_of_label(instruction->targets[k]) == count);
        take(count);
        break;
    case RETURN: take(frames[0].ends); break;
    }
    rest_is_unreachable();
}

static void check_access(const struct instruction *instruction) {
    uint8_t opcode = instruction->opcode;
    uint32_t widest = opcode == LOAD || opcode == STORE ? 2 : opcode == LOAD16_S || opcode == LOAD16_U || opcode == STORE16 ? 1 : 0;
    require(has_memory && instruction->align <= widest);
    if (opcode < STORE) take(1), depth++;
    else take(2);
}

static void check_instruction(const struct instruction *instruction, uint32_t locals) {
    uint8_t opcode = instruction->opcode;
    const struct type *type;
    if (is_access(opcode)) {
        check_access(instruction);
        return;
    }
    switch (opcode) {
    case UNREACHABLE: rest_is_unreachable(); break;
    case NOP: break;
    case BLOCK: case LOOP: open_frame(opcode, instruction->gives); break;
    case IF: take(1), open_frame(opcode, instruction->gives); break;
    case ELSE: case END: check_end(instruction); break;
    case BR: case BR_IF: case BR_TABLE: case RETURN: check_branch(instruction); break;
    case CALL:
        require(instruction->number < function_count);
        type = &types[functions[instruction->number].type];
        take(type->params), depth += type->results;
        break;
    case DROP: take(1); break;
    case SELECT: take(3), depth++; break;
    case LOCAL_GET: require(instruction->number < locals), depth++; break;
    case LOCAL_SET: require(instruction->number < locals), take(1); break;
    case LOCAL_TEE: require(instruction->number < locals), take(1), depth++; break;
    case GLOBAL_GET: require(instruction->number < global_count), depth++; break;
    case GLOBAL_SET: require(instruction->number < global_count && globals[instruction->number].is_variable), take(1); break;
    case MEMORY_SIZE: require(has_memory), depth++; break;
    case MEMORY_GROW: require(has_memory), take(1), depth++; break;
    case CONST: depth++; break;
    case EQZ: case CLZ: case CTZ: case POPCNT: take(1), depth++; break;
    default: take(2), depth++; /* a comparison or a calculation of two numbers */
    }
}

static void check_body(const struct function *function) {
    frames = checked(realloc(frames, (function->count + 1) * sizeof *frames));
    frame_count = depth = 0;
    open_frame(BLOCK, types[function->type].results);
    for (uint32_t k = 0; k < function->count; k++)
        check_instruction(&function->code[k], types[function->type].params + function->locals);
}

static int compare_exports(const void *left, const void *right) {
    const struct export *one = left, *other = right;
    if (one->size != other->size) return one->size < other->size ? -1 : 1;
    return memcmp(one->name, other->name, one->size);
}

static void check_module(void) {
    checked_body = body_count; /* the module's own rules come first, and are told as this number */
    for (uint32_t k = 0; k < type_count; k++) require(types[k].results <= 1);
    for (uint32_t k = 0; k < function_count; k++) require(functions[k].type < type_count);
    if (has_memory) require(pages <= PAGE && (!has_most || (most_pages <= PAGE && pages <= most_pages)));
    for (uint32_t k = 0; k < export_count; k++)
        require(exports[k].index < (exports[k].sort == 0 ? function_count : exports[k].sort == 2 ? has_memory : global_count));
    struct export *sorted = checked(malloc((export_count + 1) * sizeof *sorted));
    for (uint32_t k = 0; k < export_count; k++) sorted[k] = exports[k];
    qsort(sorted, export_count, sizeof *sorted, compare_exports);
    for (uint32_t k = 1; k < export_count; k++) require(compare_exports(&sorted[k - 1], &sorted[k]) != 0);
    free(sorted);
    if (has_start) require(start < function_count && types[functions[start].type].params == 0 && types[functions[start].type].results == 0);
    require(segment_count == 0 || has_memory);
    for (checked_body = 0; checked_body < body_count; checked_body++) check_body(&functions[import_count + checked_body]);
}

/* Linking with the host. */

static uint8_t *memory;
static uint32_t main_function;

static bool has_type(uint32_t function, uint32_t params, uint32_t results) {
    return types[functions[function].type].params == params && types[functions[function].type].results == results;
}

static void link_module(void) {
    bool has_main = false;
    for (uint32_t k = 0; k < import_count; k++)
        if (!has_type(k, functions[k].host == 2, functions[k].host == 1)) wrong_import = "an import of another type";
    if (wrong_import != NULL) refuse(wrong_import, 0);
    for (uint32_t k = 0; k < export_count; k++)
        if (exports[k].sort == 0 && is_name(exports[k].name, exports[k].size, "main") && has_type(exports[k].index, 0, 0)) {
            has_main = true;
            main_function = exports[k].index;
        }
    if (!has_main) refuse("no function main", 0);
    memory = checked(calloc((size_t)pages * PAGE + 1, 1));
    for (uint32_t k = 0; k < segment_count; k++)
        if ((uint64_t)segments[k].offset + segments[k].size > (uint64_t)pages * PAGE) refuse("data outside the memory", 0);
    for (uint32_t k = 0; k < segment_count; k++)
        if (segments[k].size > 0) memcpy(memory + segments[k].offset, segments[k].bytes, segments[k].size);
}

/* A run. Values of all calls stand on one stack, as do the labels of the open blocks. */

struct label { const struct instruction *block; size_t height; }; /* no block: the function itself */
struct call { const struct function *function; uint32_t next, *locals; size_t labels; };

static struct stack values;
static struct label *labels;
static size_t label_count, label_room;
static struct call calls[MOST_CALLS];
static uint32_t call_count, deepest;

static void give(uint32_t number) { push(&values, (int32_t)number); }
static uint32_t take_value(void) { return (uint32_t)pop(&values); }

static void open_label(const struct instruction *block) {
    if (label_count == label_room) labels = checked(realloc(labels, (label_room = 2 * label_room + 64) * sizeof *labels));
    labels[label_count++] = (struct label){ block, values.depth };
}

/* The arguments become the first locals; the others are 0. */
static bool enter(const struct function *function) {
    if (call_count == MOST_CALLS) return false;
    struct call *call = &calls[call_count++];
    if (call_count > deepest) deepest = call_count;
    uint32_t params = types[function->type].params;
    *call = (struct call){ function, 0, checked(calloc(params + function->locals + 1, sizeof(uint32_t))), label_count };
    for (uint32_t k = params; k > 0; k--) call->locals[k - 1] = take_value();
    open_label(NULL);
    return true;
}

/* What a block or call gives stays, and what else lies above where it began goes. */
static void keep(size_t height, bool gives) {
    uint32_t number = gives ? take_value() : 0;
    values.depth = height;
    if (gives) give(number);
}

static void leave(void) {
    struct call *call = &calls[--call_count];
    keep(labels[call->labels].height, types[call->function->type].results == 1);
    label_count = call->labels;
    free(call->locals);
}

static void branch(uint32_t number) {
    struct call *call = &calls[call_count - 1];
    struct label label = labels[label_count - 1 - number];
    if (label.block == NULL) {
        leave();
        return;
    }
    bool is_loop = label.block->opcode == LOOP;
    keep(label.height, label.block->gives && !is_loop);
    label_count -= number + 1;
    call->next = is_loop ? (uint32_t)(label.block - call->function->code) : label.block->end + 1; /* a loop is entered again */
}

static bool call_function(uint32_t index) {
    const struct function *function = &functions[index];
    if (function->host == 0) return enter(function);
    if (function->host == 1) give(next_byte());
    else write_byte(take_value());
    return true;
}

static bool is_inside(uint64_t address, uint32_t size) { return address + size <= (uint64_t)pages * PAGE; }

/* Bytes stand lowest first. The address and the offset are added without wrapping. */
static bool load(const struct instruction *instruction) {
    uint8_t opcode = instruction->opcode;
    uint64_t address = (uint64_t)take_value() + instruction->number;
    uint32_t size = opcode == LOAD ? 4 : opcode == LOAD16_S || opcode == LOAD16_U ? 2 : 1, number = 0;
    if (!is_inside(address, size)) return false;
    for (uint32_t k = 0; k < size; k++) number |= (uint32_t)memory[address + k] << (8 * k);
    if (opcode == LOAD8_S) number = (uint32_t)(int32_t)(int8_t)number;
    if (opcode == LOAD16_S) number = (uint32_t)(int32_t)(int16_t)number;
    give(number);
    return true;
}

static bool store(const struct instruction *instruction) {
    uint32_t number = take_value(), size = instruction->opcode == STORE ? 4 : instruction->opcode == STORE16 ? 2 : 1;
    uint64_t address = (uint64_t)take_value() + instruction->number;
    if (!is_inside(address, size)) return false;
    for (uint32_t k = 0; k < size; k++) memory[address + k] = (uint8_t)(number >> (8 * k));
    return true;
}

static void grow(void) {
    uint64_t old = pages, wanted_pages = old + take_value();
    if (wanted_pages > (has_most && most_pages < MOST_PAGES ? most_pages : MOST_PAGES)) {
        give(UINT32_MAX);
        return;
    }
    memory = checked(realloc(memory, wanted_pages * PAGE + 1));
    memset(memory + old * PAGE, 0, (wanted_pages - old) * PAGE);
    pages = (uint32_t)wanted_pages;
    give((uint32_t)old);
}

static uint32_t leading_zeros(uint32_t number) { return number == 0 ? 32 : (uint32_t)__builtin_clz(number); }
static uint32_t trailing_zeros(uint32_t number) { return number == 0 ? 32 : (uint32_t)__builtin_ctz(number); }
static uint32_t rotated(uint32_t number, uint32_t left) { return left == 0 ? number : number << left | number >> (32 - left); }

/* Divisions. False for a divisor of 0, and where the signed quotient is 2^31. */
static bool divide(uint8_t opcode, uint32_t left, uint32_t right) {
    int32_t from = (int32_t)left, by = (int32_t)right;
    if (right == 0) return false;
    if (opcode == DIV_S && from == INT32_MIN && by == -1) return false;
    switch (opcode) {
    case DIV_S: give((uint32_t)(from / by)); break;
    case DIV_U: give(left / right); break;
    case REM_S: give(by == -1 ? 0 : (uint32_t)(from % by)); break;
    default: give(left % right);
    }
    return true;
}

static bool calculate(uint8_t opcode) {
    uint32_t right = take_value(), left;
    switch (opcode) {
    case EQZ: give(right == 0); return true;
    case CLZ: give(leading_zeros(right)); return true;
    case CTZ: give(trailing_zeros(right)); return true;
    case POPCNT: give((uint32_t)__builtin_popcount(right)); return true;
    }
    left = take_value();
    switch (opcode) {
    case EQ: give(left == right); break;
    case NE: give(left != right); break;
    case LT_S: give((int32_t)left < (int32_t)right); break;
    case LT_U: give(left < right); break;
    case GT_S: give((int32_t)left > (int32_t)right); break;
    case GT_U: give(left > right); break;
    case LE_S: give((int32_t)left <= (int32_t)right); break;
    case LE_U: give(left <= right); break;
    case GE_S: give((int32_t)left >= (int32_t)right); break;
    case GE_U: give(left >= right); break;
    case ADD: give(left + right); break;
    case SUB: give(left - right); break;
    case MUL: give(left * right); break;
    case AND: give(left & right); break;
    case OR: give(left | right); break;
    case XOR: give(left ^ right); break;
    case SHL: give(left << (right & 31)); break;
    case SHR_S: give((uint32_t)((int32_t)left >> (right & 31))); break;
    case SHR_U: give(left >> (right & 31)); break;
    case ROTL: give(rotated(left, right & 31)); break;
    case ROTR: give(rotated(left, (32 - (right & 31)) & 31)); break;
    default: return divide(opcode, left, right);
    }
    return true;
}

/* One instruction. False where it traps. */
static bool execute(struct call *call, const struct instruction *instruction) {
    uint32_t number, index = instruction->number;
    switch (instruction->opcode) {
    case UNREACHABLE: return false;
    case NOP: break;
    case BLOCK: case LOOP: open_label(instruction); break;
    case IF:
        number = take_value();
        open_label(instruction);
        if (number == 0) call->next = instruction->other != 0 ? instruction->other : instruction->end;
        break;
    case ELSE: label_count--, call->next = instruction->end + 1; break; /* met from above */
    case END:
        if (labels[label_count - 1].block == NULL) leave();
        else label_count--;
        break;
    case BR: branch(index); break;
    case BR_IF: if (take_value() != 0) branch(index); break;
    case BR_TABLE: number = take_value(), branch(instruction->targets[number < index ? number : index]); break;
    case RETURN: leave(); break;
    case CALL: return call_function(index);
    case DROP: take_value(); break;
    case SELECT:
        if (take_value() == 0) number = take_value(), take_value(), give(number);
        else take_value();
        break;
    case LOCAL_GET: give(call->locals[index]); break;
    case LOCAL_SET: call->locals[index] = take_value(); break;
    case LOCAL_TEE: call->locals[index] = take_value(), give(call->locals[index]); break;
    case GLOBAL_GET: give(globals[index].number); break;
    case GLOBAL_SET: globals[index].number = take_value(); break;
    case LOAD: case LOAD8_S: case LOAD8_U: case LOAD16_S: case LOAD16_U: return load(instruction);
    case STORE: case STORE8: case STORE16: return store(instruction);
    case MEMORY_SIZE: give(pages); break;
    case MEMORY_GROW: grow(); break;
    case CONST: give(instruction->number); break;
    default: return calculate(instruction->opcode);
    }
    return true;
}

/* A function that is called from outside, to its end. */
static enum status run(uint32_t index) {
    if (!call_function(index)) return FAULT;
    while (call_count > 0) {
        struct call *call = &calls[call_count - 1];
        if (steps == limit) return STILL_GOING;
        steps++;
        if (!execute(call, &call->function->code[call->next++])) return FAULT;
    }
    return ENDED;
}

int main(int argc, char **argv) {
    read_program(argc, argv);
    read_module();
    check_module();
    link_module();
    enum status status = has_start ? run(start) : ENDED;
    if (status == ENDED) status = run(main_function);
    fflush(stdout);
    if (tells_needs) tell_steps(), fprintf(stderr, " pages=%" PRIu32 " calls=%" PRIu32 "\n", pages, deepest);
    return status;
}
