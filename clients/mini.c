/* mini: a small interpreter over brc.h.
 *
 *     mini PROGRAM..
 *
 * Each file is a program. All of them run at the same time, each on a thread of its own, over one heap. They find one
 * another's objects in the globals. Then mini prints what each printed, in the order of the files, and what the heap
 * counted. If objects remain, it prints the heap's report.
 *
 * A program has 26 registers, a to z, each with one reference or none. A line has one instruction:
 *
 *     int R NUMBER    text R WORD    list R    dict R    box R    none R    true R    false R
 *     copy R S        R gets one more reference to the object of S
 *     drop R          the reference of R is released
 *     push L V        V goes to the end of the list L, and V is empty then; so with `send` and `share`
 *     pop R L         the last entry of L, out of it
 *     get R L S       the entry of L at the index S
 *     set L S V       V and the entry of L at the index S are exchanged
 *     len R C         how many entries the list, dictionary or mailbox C has
 *     put D KEY V     V goes beside the word KEY; what was there comes into V
 *     find R D KEY    the value beside the word KEY
 *     del R D KEY     the same, out of D
 *     send B V        V goes into the mailbox B
 *     recv R B        the first letter of B; waits for one
 *     share KEY V     V goes beside KEY in the globals
 *     fetch R KEY     what is beside KEY in the globals; waits for it
 *     add R S T       so `sub`, `mul`, and `less`, which gives 1 or 0
 *     same R S T      1 if S and T lead to one object, else 0
 *     jump NAME       goes on at the line `:NAME`
 *     if R NAME       does so unless the integer of R is 0
 *     print R
 *
 * An integer stands in a list as a scalar: it takes no cell of the heap there, and what comes out is a new object.
 *
 * A line that begins with # is a comment. The exit status is 0; 1 if a program failed or an object remains; 2 if a program
 * can't be read. */
#define _POSIX_C_SOURCE 200809L
#include <inttypes.h>
#include <pthread.h>
#include <sched.h>
#include <stdio.h>
#include <stdlib.h>
#include <string.h>
#define BRC_YIELD() sched_yield()
#include "brc.h"

enum { MOST_LINES = 1000, MOST_PROGRAMS = 60, REGISTERS = 26, WORD = 32, CELLS = 8192 };
enum { NUMBER = 1 };            /* the label of an integer in a list */

typedef enum {
    INT, TEXT, LIST, DICT, BOX, NONE, TRUE_, FALSE_, COPY, DROP, PUSH, POP, GET, SET, LEN, PUT, FIND, DEL, SEND, RECV, SHARE,
    FETCH, ADD, SUB, MUL, LESS, SAME, JUMP, IF, PRINT
} op_t;

/* What an instruction is called, and its operands: r a register, n a number, w a word, l a label. */
static const struct { const char *name, *operands; op_t op; } FORMS[] = {
    {"int", "rn", INT},     {"text", "rw", TEXT},   {"list", "r", LIST},    {"dict", "r", DICT},    {"box", "r", BOX},
    {"none", "r", NONE},    {"true", "r", TRUE_},   {"false", "r", FALSE_}, {"copy", "rr", COPY},   {"drop", "r", DROP},
    {"push", "rr", PUSH},   {"pop", "rr", POP},     {"get", "rrr", GET},    {"set", "rrr", SET},    {"len", "rr", LEN},
    {"put", "rwr", PUT},    {"find", "rrw", FIND},  {"del", "rrw", DEL},    {"send", "rr", SEND},   {"recv", "rr", RECV},
    {"share", "wr", SHARE}, {"fetch", "rw", FETCH}, {"add", "rrr", ADD},    {"sub", "rrr", SUB},    {"mul", "rrr", MUL},
    {"less", "rrr", LESS},  {"same", "rrr", SAME},  {"jump", "l", JUMP},    {"if", "rl", IF},       {"print", "r", PRINT},
};
enum { FORM_COUNT = sizeof FORMS / sizeof FORMS[0] };

typedef struct {
    op_t op;
    int line;
    int reg[3];                 /* its registers, in their order */
    int64_t number;
    int target;                 /* of a label: the instruction behind it */
    char word[WORD];            /* of a label: its name */
} instruction_t;

typedef struct {
    const char *name;
    instruction_t code[MOST_LINES];
    int length;
    brc_thread thread;
    brc_ref reg[REGISTERS];
    int at;
    const char *failure;        /* why it ended early */
    FILE *out;
    char *printed;
    size_t printed_len;
} program_t;

/* ---- Reading a program */

static int bad(const char *file, int line, const char *what, const char *word) {
    fprintf(stderr, "mini: %s:%d: %s %s\n", file, line, what, word);
    return 0;
}

/* Reads one operand into the instruction. */
static int operand(instruction_t *in, int *regs, char form, const char *word) {
    char *end;
    switch (form) {
    case 'r':
        in->reg[(*regs)++] = word[0] - 'a';
        return word[0] >= 'a' && word[0] <= 'z' && word[1] == 0;
    case 'n':
        in->number = strtoll(word, &end, 10);
        return *end == 0;
    default:
        snprintf(in->word, sizeof in->word, "%s", word);
        return strlen(word) < sizeof in->word;
    }
}

static int instruction(program_t *p, const char *file, int line, char **word, int words) {
    instruction_t *in = &p->code[p->length];
    int form = 0, regs = 0;
    while (form < FORM_COUNT && strcmp(FORMS[form].name, word[0]) != 0) form++;
    if (form == FORM_COUNT) return bad(file, line, "no instruction", word[0]);
    if ((size_t)words != 1 + strlen(FORMS[form].operands)) return bad(file, line, "wrong count of operands for", word[0]);
    if (p->length == MOST_LINES) return bad(file, line, "too long at", word[0]);
    memset(in, 0, sizeof *in);
    in->op = FORMS[form].op;
    in->line = line;
    for (int i = 1; i < words; i++)
        if (!operand(in, &regs, FORMS[form].operands[i - 1], word[i])) return bad(file, line, "bad operand", word[i]);
    p->length++;
    return 1;
}

/* Reads the file: first all lines, then each label is looked up. */
static int load(program_t *p, const char *file) {
    static struct { char name[WORD]; int target; } label[MOST_LINES];
    int labels = 0, line = 0, well = 1;
    char text[256];
    const char *base = strrchr(file, '/');
    FILE *f = fopen(file, "r");
    if (!f) return bad(file, 0, "no such", "file");
    p->name = base ? base + 1 : file;
    while (well && fgets(text, sizeof text, f)) {
        char *word[5];
        int words = 0;
        line++;
        for (char *w = strtok(text, " \t\r\n"); w && words < 5; w = strtok(NULL, " \t\r\n")) word[words++] = w;
        if (words == 0 || word[0][0] == '#') continue;
        if (word[0][0] != ':') {
            well = instruction(p, file, line, word, words);
        } else if (labels == MOST_LINES || strlen(word[0] + 1) >= WORD) {
            well = bad(file, line, "no room for", word[0]);
        } else {
            strcpy(label[labels].name, word[0] + 1);
            label[labels++].target = p->length;
        }
    }
    fclose(f);
    for (int i = 0; well && i < p->length; i++) {
        instruction_t *in = &p->code[i];
        int k = 0;
        if (in->op != JUMP && in->op != IF) continue;
        while (k < labels && strcmp(label[k].name, in->word) != 0) k++;
        if (k == labels) well = bad(file, in->line, "no label", in->word);
        else in->target = label[k].target;
    }
    return well;
}

/* ---- Running it. Each call here returns a status. BRC_BUSY says that nothing was done, and the instruction runs again. */

static brc_status integer(program_t *p, int reg, int64_t *value) { return brc_int_of(&p->thread, p->reg[reg], value); }

/* What was made goes into a register, and what was there is released. */
static brc_status into(program_t *p, int reg, brc_status s, brc_ref made) {
    if (s != BRC_OK) return s;
    brc_clear(&p->thread, &p->reg[reg]);
    p->reg[reg] = made;
    return BRC_OK;
}

/* A register whose reference was given away, for which `old` came out. */
static brc_status out_of(program_t *p, int reg, brc_status s, brc_ref old) {
    if (s == BRC_OK) p->reg[reg] = old;
    return s;
}

/* What goes into a list: an integer is a scalar, and all else a reference. */
static brc_status entry_of(program_t *p, int reg, brc_value *value) {
    int64_t number;
    brc_status s = integer(p, reg, &number);
    if (s == BRC_OK) *value = brc_of_int(NUMBER, number);
    if (s != BRC_WRONG_KIND) return s;
    *value = brc_of_ref(0, p->reg[reg]);
    return BRC_OK;
}

/* A register whose value the list has. The reference is the list's; that of a scalar is still the register's. */
static brc_status entered(program_t *p, int reg, brc_status s, brc_value value) {
    if (s != BRC_OK) return s;
    if (value.holds == BRC_REFERENCE) p->reg[reg] = BRC_NONE;
    return brc_clear(&p->thread, &p->reg[reg]);
}

/* What came out of a list goes into a register: of a scalar the integer, and of None's scalar None. */
static brc_status came(program_t *p, int reg, brc_status s, brc_value value) {
    brc_ref made = BRC_NONE;
    if (s != BRC_OK) return s;
    if (value.holds == BRC_REFERENCE) made = value.bits;
    else if (value.label == NUMBER) BRC_MAKE(&p->thread, s, brc_new_int(&p->thread, brc_int_in(value), &made));
    else s = brc_none(&p->thread, &made);
    return into(p, reg, s, made);
}

static uint32_t index_of(int64_t number) { return number < 0 || number > UINT32_MAX ? UINT32_MAX : (uint32_t)number; }

static brc_status print_text(program_t *p, brc_ref ref) {
    size_t len;
    brc_status s = brc_text_len(&p->thread, ref, &len);
    uint8_t *bytes;
    if (s != BRC_OK) return s;
    bytes = malloc(len + 1);
    if (!bytes) return BRC_OUT_OF_MEMORY;
    s = brc_text_of(&p->thread, ref, bytes, len, &len);
    if (s == BRC_OK) {
        fprintf(p->out, "%s: ", p->name);
        fwrite(bytes, 1, len, p->out);
        putc('\n', p->out);
    }
    free(bytes);
    return s;
}

static brc_status print(program_t *p, brc_ref ref) {
    brc_thread *t = &p->thread;
    brc_kind kind;
    int64_t value;
    size_t len;
    brc_status s = brc_kind_of(t, ref, &kind);
    if (s != BRC_OK) return s;
    switch (kind) {
    case BRC_INT:
        s = brc_int_of(t, ref, &value);
        if (s == BRC_OK) fprintf(p->out, "%s: %" PRId64 "\n", p->name, value);
        return s;
    case BRC_TEXT:
        return print_text(p, ref);
    case BRC_LIST:
    case BRC_DICT:
    case BRC_MAILBOX:
        s = brc_len_of(t, ref, &len);
        if (s == BRC_OK)
            fprintf(p->out, "%s: %s of %zu\n", p->name, kind == BRC_LIST ? "list" : kind == BRC_DICT ? "dict" : "box", len);
        return s;
    default:
        fprintf(p->out, "%s: %s\n", p->name, kind == BRC_NOTHING ? "none" : kind == BRC_TRUE ? "true" : "false");
        return BRC_OK;
    }
}

/* The result of an integer instruction, if it doesn't overflow. */
static int calculated(op_t op, int64_t a, int64_t b, int64_t *result) {
    switch (op) {
    case ADD:
        if (b > 0 ? a > INT64_MAX - b : a < INT64_MIN - b) return 0;
        *result = a + b;
        return 1;
    case SUB:
        if (b < 0 ? a > INT64_MAX + b : a < INT64_MIN + b) return 0;
        *result = a - b;
        return 1;
    case MUL:
        if (a != 0 && b != 0) {
            uint64_t x = a < 0 ? 0 - (uint64_t)a : (uint64_t)a, y = b < 0 ? 0 - (uint64_t)b : (uint64_t)b;
            if (x > ((uint64_t)INT64_MAX + ((a < 0) != (b < 0))) / y) return 0;
        }
        *result = (int64_t)((uint64_t)a * (uint64_t)b);
        return 1;
    default:
        *result = a < b;
        return 1;
    }
}

static brc_status calculate(program_t *p, const instruction_t *in) {
    int64_t a, b, result;
    brc_ref made = BRC_NONE;
    brc_status s = integer(p, in->reg[1], &a);
    if (s == BRC_OK) s = integer(p, in->reg[2], &b);
    if (s != BRC_OK) return s;
    if (!calculated(in->op, a, b, &result)) {
        p->failure = "Overflow";
        return BRC_OK;
    }
    BRC_MAKE(&p->thread, s, brc_new_int(&p->thread, result, &made));
    return into(p, in->reg[0], s, made);
}

/* `share` and `fetch`: a reference to the globals is had for the length of the instruction. */
static brc_status with_globals(program_t *p, const instruction_t *in) {
    brc_thread *t = &p->thread;
    brc_ref globals, found = BRC_NONE;
    brc_status s = brc_globals(t, &globals);
    if (s != BRC_OK) return s;
    if (in->op == SHARE) {
        s = brc_put(t, globals, in->word, p->reg[in->reg[0]], &found);
        s = out_of(p, in->reg[0], s, BRC_NONE);
        brc_clear(t, &found);                           /* what was shared by that name before */
    } else {
        s = brc_find(t, globals, in->word, &found);
        s = into(p, in->reg[0], s, found);
        if (s == BRC_NO_SUCH_KEY) s = BRC_BUSY;         /* nobody has shared it yet */
    }
    brc_release(t, globals);
    return s;
}

static brc_status step(program_t *p, const instruction_t *in) {
    brc_thread *t = &p->thread;
    const int x = in->reg[0], y = in->reg[1], z = in->reg[2];
    brc_ref *r = p->reg, made = BRC_NONE;
    brc_value value = brc_of_bits(0, 0), old = value;
    int64_t number;
    uint32_t same;
    size_t len;
    brc_status s;
    switch (in->op) {
    case INT: BRC_MAKE(t, s, brc_new_int(t, in->number, &made)); return into(p, x, s, made);
    case TEXT: BRC_MAKE(t, s, brc_new_str(t, in->word, &made)); return into(p, x, s, made);
    case LIST: BRC_MAKE(t, s, brc_new_list(t, &made)); return into(p, x, s, made);
    case DICT: BRC_MAKE(t, s, brc_new_dict(t, &made)); return into(p, x, s, made);
    case BOX: BRC_MAKE(t, s, brc_new_mailbox(t, &made)); return into(p, x, s, made);
    case NONE: s = brc_none(t, &made); return into(p, x, s, made);
    case TRUE_: s = brc_truth(t, 1, &made); return into(p, x, s, made);
    case FALSE_: s = brc_truth(t, 0, &made); return into(p, x, s, made);
    case COPY: s = brc_retain(t, r[y], &made); return into(p, x, s, made);
    case DROP: return brc_clear(t, &r[x]);
    case PUSH:
        s = entry_of(p, y, &value);
        if (s == BRC_OK) s = brc_list_push_value(t, r[x], value);
        return entered(p, y, s, value);
    case SEND: return out_of(p, y, brc_send(t, r[x], r[y]), BRC_NONE);
    case POP: s = brc_list_pop_value(t, r[y], &value); return came(p, x, s, value);
    case RECV:
        s = brc_recv(t, r[y], &made);
        return s == BRC_NO_SUCH_PLACE ? (brc_status)BRC_BUSY : into(p, x, s, made);     /* no letter yet */
    case GET:
        s = integer(p, z, &number);
        if (s == BRC_OK) s = brc_list_get_value(t, r[y], index_of(number), &value);
        return came(p, x, s, value);
    case SET:
        s = integer(p, y, &number);
        if (s == BRC_OK) s = entry_of(p, z, &value);
        if (s == BRC_OK) s = brc_list_set_value(t, r[x], index_of(number), value, &old);
        s = entered(p, z, s, value);
        return came(p, z, s, old);
    case LEN:
        s = brc_len_of(t, r[y], &len);
        if (s == BRC_OK) BRC_MAKE(t, s, brc_new_int(t, (int64_t)len, &made));
        return into(p, x, s, made);
    case PUT: s = brc_put(t, r[x], in->word, r[y], &made); return out_of(p, y, s, made);
    case FIND: s = brc_find(t, r[y], in->word, &made); return into(p, x, s, made);
    case DEL: s = brc_del(t, r[y], in->word, &made); return into(p, x, s, made);
    case SHARE:
    case FETCH: return with_globals(p, in);
    case ADD:
    case SUB:
    case MUL:
    case LESS: return calculate(p, in);
    case SAME:
        s = brc_same(t, r[y], r[z], &same);
        if (s == BRC_OK) s = brc_new_int(t, (int64_t)same, &made);
        return into(p, x, s, made);
    case JUMP: p->at = in->target; return BRC_OK;
    case IF:
        s = integer(p, x, &number);
        if (s == BRC_OK && number != 0) p->at = in->target;
        return s;
    case PRINT: return print(p, r[x]);
    }
    return BRC_OK;
}

/* The life of a thread. It polls and works after each instruction, and leaves the heap at the end. */
static void *run(void *given) {
    program_t *p = given;
    brc_status s;
    while (p->at < p->length && !p->failure) {
        const instruction_t *in = &p->code[p->at++];
        s = step(p, in);
        brc_poll(&p->thread);
        brc_work(&p->thread, 64);
        if (s == BRC_BUSY) {
            p->at = (int)(in - p->code);
            BRC_YIELD();
        } else if (s != BRC_OK) {
            p->failure = brc_status_name(s);
        }
        if (p->failure) fprintf(p->out, "%s: fault %s in line %d\n", p->name, p->failure, in->line);
    }
    brc_release_all(&p->thread);
    BRC_WAIT(&p->thread, s, brc_thread_leave(&p->thread));
    if (s != BRC_OK) p->failure = brc_status_name(s);
    return NULL;
}

/* ---- The whole */

static int fails(const char *what, brc_status s) {
    if (s != BRC_OK) fprintf(stderr, "mini: %s: %s\n", what, brc_status_name(s));
    return s != BRC_OK;
}

/* Releases what the programs left in the globals. */
static int clear_globals(brc_heap *heap) {
    brc_thread last;
    brc_ref globals, value, gone;
    brc_key key;
    uint8_t name[WORD];
    brc_status s;
    if (fails("thread", brc_thread_open(heap, &last)) || fails("globals", brc_globals(&last, &globals))) return 0;
    while (brc_dict_pair(&last, globals, 0, &key, name, sizeof name, &value) == BRC_OK) {
        if (fails("globals", brc_dict_del_text(&last, globals, name, key.len, &gone))) break;
        brc_release(&last, gone);
        brc_release(&last, value);
    }
    brc_release_all(&last);
    BRC_WAIT(&last, s, brc_thread_leave(&last));
    brc_thread_drop(last);
    return !fails("leave", s);
}

/* Prints the report of a closed heap, in parts. */
static void print_report(brc_heap *heap) {
    uint8_t part[64];
    size_t from = 0, len = 1;
    while (from < len) {
        if (fails("report", brc_heap_report(heap, from, part, sizeof part, &len))) return;
        fwrite(part, 1, len - from < sizeof part ? len - from : sizeof part, stdout);
        from += sizeof part;
    }
}

int main(int argc, char **argv) {
    static program_t program[MOST_PROGRAMS];
    static pthread_t runs[MOST_PROGRAMS];
    brc_heap heap;
    uint64_t live = 0, allocs = 0, frees = 0;
    uint64_t cycles = 0;
    uint32_t registered = 0, left = 0;
    int count = argc - 1, status = 0;
    brc_status s;
    if (count < 1 || count > MOST_PROGRAMS) {
        fprintf(stderr, "mini PROGRAM..: 1 to %d files\n", MOST_PROGRAMS);
        return 2;
    }
    if (brc_version() / 100 != BRC_VERSION / 100) {
        fprintf(stderr, "mini: the library has version %u, and brc.h %u\n", brc_version(), BRC_VERSION);
        return 2;
    }
    for (int i = 0; i < count; i++) {
        if (!load(&program[i], argv[i + 1])) return 2;
        program[i].out = open_memstream(&program[i].printed, &program[i].printed_len);
        if (!program[i].out) return 2;
    }
    if (fails("heap", brc_heap_open(&heap, CELLS))) return 2;
    for (int i = 0; i < count; i++) {
        if (fails("thread", brc_thread_open(&heap, &program[i].thread))) return 2;
        brc_claim(&program[i].thread, (uint32_t)CELLS * (uint32_t)i / (uint32_t)count, 0);
    }
    for (int i = 0; i < count; i++)
        if (pthread_create(&runs[i], NULL, run, &program[i]) != 0) return 2;
    for (int i = 0; i < count; i++) {
        pthread_join(runs[i], NULL);
        brc_thread_drop(program[i].thread);
        fclose(program[i].out);
        fwrite(program[i].printed, 1, program[i].printed_len, stdout);
        free(program[i].printed);
        if (program[i].failure) status = 1;
    }
    if (!clear_globals(&heap) || fails("counts", brc_heap_counts(&heap, &registered, &left, &allocs, &frees))) return 2;
    BRC_WAIT_HEAP(s, brc_heap_close(&heap, &live, &cycles));
    if (fails("close", s)) return 2;
    printf("threads %" PRIu32 " of %" PRIu32 ", made less freed %" PRIu64 ", live %" PRIu64 ", cycles %" PRIu64 "\n", left,
           registered, allocs - frees, live, cycles);
    if (live != 0) print_report(&heap);
    brc_heap_drop(heap);
    return live != 0 ? 1 : status;
}
