/* nomem: one life of a heap, again and again, and in the nth life the nth allocation is refused.
 *
 * Each call must return OK or OUT_OF_MEMORY. A refused call must have changed nothing: it is made once more, and passes. At
 * the end of each life nothing may be left, in the heap or of the program's memory. It is linked with
 *
 *     -Wl,--wrap=malloc,--wrap=realloc,--wrap=free
 *
 * so that the allocations of the library come here. */
#include <stdio.h>
#include <stdlib.h>
#include "brc.h"

static long allocations, refused_at = -1, blocks, told;
static int is_empty;                            /* no memory is left: all are refused, and none is counted */

void *__real_malloc(size_t size);
void *__real_realloc(void *block, size_t size);
void __real_free(void *block);
void *__wrap_malloc(size_t size);
void *__wrap_realloc(void *block, size_t size);
void __wrap_free(void *block);

void *__wrap_malloc(size_t size) {
    void *block;
    if (is_empty || ++allocations == refused_at) return NULL;
    block = __real_malloc(size);
    blocks += block != NULL;
    return block;
}

void *__wrap_realloc(void *block, size_t size) {
    if (is_empty || ++allocations == refused_at) return NULL;
    blocks += block == NULL;
    return __real_realloc(block, size);
}

void __wrap_free(void *block) {
    blocks -= block != NULL;
    __real_free(block);
}

static void fail(int line, brc_status s) {
    fprintf(stderr, "nomem: line %d, with allocation %ld refused: %s\n", line, refused_at, brc_status_name(s));
    exit(1);
}

/* The call, and once more if memory was refused. */
#define TRY(call)                                                                                     \
    do {                                                                                              \
        brc_status s_ = (call);                                                                       \
        if (s_ == BRC_OUT_OF_MEMORY) {                                                                \
            told++;                                                                                   \
            s_ = (call);                                                                              \
        }                                                                                             \
        if (s_ != BRC_OK) fail(__LINE__, s_);                                                         \
    } while (0)

enum { ROUNDS = 40 };

/* One object goes into each kind of container, and is looked for there. */
static void fill(brc_thread *t, brc_ref list, brc_ref dict, brc_ref mailbox, int i) {
    brc_ref one, more, old;
    brc_key key;
    uint8_t text[64];
    size_t len;
    char name[40];
    snprintf(name, sizeof name, "a key with the number %d", i);

    TRY(brc_new_int(t, 1000 + i, &one));
    TRY(brc_retain(t, one, &more));
    TRY(brc_list_push(t, list, more));
    TRY(brc_retain(t, one, &more));
    TRY(brc_send(t, mailbox, more));
    TRY(brc_new_str(t, name, &more));
    TRY(brc_put(t, dict, name, more, &old));
    if (old != BRC_NONE) fail(__LINE__, BRC_OK);
    TRY(brc_dict_put_int(t, dict, i, one, &old));
    if (old != BRC_NONE) fail(__LINE__, BRC_OK);

    TRY(brc_find(t, dict, name, &one));
    TRY(brc_text_of(t, one, text, sizeof text, &len));
    if (len != strlen(name) || memcmp(text, name, len) != 0) fail(__LINE__, BRC_OK);
    TRY(brc_release(t, one));
    TRY(brc_dict_pair(t, dict, 2 * (uint32_t)i, &key, text, sizeof text, &one));
    if (!key.is_text || key.len != len) fail(__LINE__, BRC_OK);
    TRY(brc_release(t, one));
}

/* Something comes out of each kind of container. */
static void take(brc_thread *t, brc_ref list, brc_ref dict, brc_ref mailbox, int i) {
    brc_ref one;
    TRY(brc_dict_del_int(t, dict, i, &one));
    TRY(brc_release(t, one));
    TRY(brc_recv(t, mailbox, &one));
    TRY(brc_release(t, one));
    TRY(brc_list_pop(t, list, &one));
    TRY(brc_release(t, one));
}

/* Each other call that makes a reference, and a set. */
static void change(brc_thread *t, brc_ref list, brc_ref dict, int i) {
    brc_ref none, truth, globals, one, old;
    TRY(brc_none(t, &none));
    TRY(brc_truth(t, 1, &truth));
    TRY(brc_globals(t, &globals));
    TRY(brc_list_get(t, list, 0, &one));
    TRY(brc_list_push(t, list, none));
    TRY(brc_list_set(t, list, 0, truth, &old));
    TRY(brc_list_take(t, list, 0, &truth));
    TRY(brc_release(t, truth));
    TRY(brc_list_push(t, list, old));
    TRY(brc_release(t, one));
    TRY(brc_dict_find_int(t, dict, i, &one));
    TRY(brc_dict_put_int(t, globals, i, one, &old));
    if (old != BRC_NONE) fail(__LINE__, BRC_OK);
    TRY(brc_dict_del_int(t, globals, i, &one));
    TRY(brc_release(t, one));
    TRY(brc_release(t, globals));
}

enum { LABEL = 7, NUMBER = 5000 };

/* A value to be put: a scalar if i is even, else a reference more to the object. */
static brc_value value_of(brc_thread *t, brc_ref one, int i) {
    brc_ref more;
    if (i % 2 == 0) return brc_of_int(LABEL, i);
    TRY(brc_retain(t, one, &more));
    return brc_of_ref(LABEL, more);
}

/* What came out is that value, and is let go of. */
static void is_value_of(brc_thread *t, brc_value came, int i) {
    int64_t number = 0;
    if (came.holds != (i % 2 == 0 ? BRC_SCALAR : BRC_REFERENCE) || came.label != LABEL) fail(__LINE__, BRC_OK);
    if (came.holds == BRC_SCALAR) {
        if (brc_int_in(came) != i) fail(__LINE__, BRC_OK);
        return;
    }
    TRY(brc_int_of(t, came.bits, &number));
    if (number != NUMBER) fail(__LINE__, BRC_OK);
    TRY(brc_release(t, came.bits));
}

static void is_nothing(brc_value came) {
    if (came.holds != BRC_NO_VALUE || came.label != 0 || came.bits != 0) fail(__LINE__, BRC_OK);
}

/* Each call that puts a value makes its container grow, and the value is looked at. */
static void fill_by_values(brc_thread *t, brc_ref one, brc_ref list, brc_ref dict, brc_ref mailbox, int i) {
    brc_value value;
    brc_key key;
    uint32_t pairs;
    uint8_t text[64];
    char name[40];
    const uint8_t *bytes = (const uint8_t *)name;
    size_t len;
    snprintf(name, sizeof name, "a key with the number %d", i);
    len = strlen(name);

    value = value_of(t, one, i);
    TRY(brc_list_push_value(t, list, value));
    value = value_of(t, one, i);
    TRY(brc_list_put_value(t, list, 2 * (uint32_t)i + 1, value, &value));
    is_nothing(value);
    value = value_of(t, one, i);
    TRY(brc_send_value(t, mailbox, value));
    value = value_of(t, one, i);
    TRY(brc_dict_put_int_value(t, dict, i, value, &value));
    is_nothing(value);
    value = value_of(t, one, i);
    TRY(brc_dict_put_text_value(t, dict, bytes, len, value, &value));
    is_nothing(value);

    TRY(brc_list_get_value(t, list, 2 * (uint32_t)i + 1, &value));
    is_value_of(t, value, i);
    TRY(brc_dict_find_int_value(t, dict, i, &value));
    is_value_of(t, value, i);
    TRY(brc_dict_pair_value(t, dict, 2 * (uint32_t)i + 1, &key, text, sizeof text, &value, &pairs));
    is_value_of(t, value, i);
    if (!key.is_text || key.len != len || memcmp(text, name, len) != 0) fail(__LINE__, BRC_OK);
    if (pairs != 2 * (uint32_t)i + 2) fail(__LINE__, BRC_OK);
}

/* The calls by which a value comes out: of a list, a dictionary, a mailbox. */
enum { GET, TAKE, POP, SET, PUT, FIND_INT, FIND_TEXT, DEL_INT, DEL_TEXT, PUT_INT, PUT_TEXT, PAIR, RECV, COMINGS };

static const char *const NAMES[] = {"beside a scalar", "beside a reference"};

/* A container for the call, with a reference and a scalar. */
static brc_ref make_both(brc_thread *t, brc_ref one, int call) {
    brc_ref made;
    brc_value value;
    if (call <= PUT) TRY(brc_new_list(t, &made));
    else if (call <= PAIR) TRY(brc_new_dict(t, &made));
    else TRY(brc_new_mailbox(t, &made));
    for (int i = 0; i < 2; i++) {
        value = value_of(t, one, call == RECV ? 1 - i : i);
        if (call <= PUT) TRY(brc_list_push_value(t, made, value));
        else if (call == RECV) TRY(brc_send_value(t, made, value));
        else if (call == FIND_INT || call == DEL_INT || call == PUT_INT) TRY(brc_dict_put_int_value(t, made, i, value, &value));
        else TRY(brc_dict_put_text_value(t, made, (const uint8_t *)NAMES[i], strlen(NAMES[i]), value, &value));
    }
    return made;
}

/* The scalar comes out if i is 0, else the reference. A call that puts a value puts that scalar. */
static brc_status come(brc_thread *t, int call, brc_ref from, int i, brc_value *came) {
    const brc_value scalar = brc_of_int(LABEL, 0);
    const uint8_t *name = (const uint8_t *)NAMES[i];
    const size_t len = strlen(NAMES[i]);
    const uint32_t index = (uint32_t)i;
    brc_key key;
    uint8_t text[8];
    uint32_t pairs;
    switch (call) {
    case GET: return brc_list_get_value(t, from, index, came);
    case TAKE: return brc_list_take_value(t, from, index, came);
    case POP: return brc_list_pop_value(t, from, came);
    case SET: return brc_list_set_value(t, from, index, scalar, came);
    case PUT: return brc_list_put_value(t, from, index, scalar, came);
    case FIND_INT: return brc_dict_find_int_value(t, from, i, came);
    case FIND_TEXT: return brc_dict_find_text_value(t, from, name, len, came);
    case DEL_INT: return brc_dict_del_int_value(t, from, i, came);
    case DEL_TEXT: return brc_dict_del_text_value(t, from, name, len, came);
    case PUT_INT: return brc_dict_put_int_value(t, from, i, scalar, came);
    case PUT_TEXT: return brc_dict_put_text_value(t, from, name, len, scalar, came);
    case PAIR: return brc_dict_pair_value(t, from, index, &key, text, sizeof text, came, &pairs);
    default: return brc_recv_value(t, from, came);
    }
}

/* No place is left that has memory, so memory for the next one is asked for. */
static void tighten(brc_thread *t, brc_ref one) {
    brc_ref more;
    brc_status s;
    is_empty = 1;
    while ((s = brc_retain(t, one, &more)) == BRC_OK) { }
    is_empty = 0;
    if (s != BRC_OUT_OF_MEMORY) fail(__LINE__, s);
}

/* The reference comes out into a place that is asked for, and the scalar without memory; a pair's key is copied. */
static void come_by_values(brc_thread *t, brc_ref one, int call) {
    const brc_ref from = make_both(t, one, call);
    brc_value came;
    long before;
    tighten(t, one);
    before = allocations;
    TRY(come(t, call, from, 1, &came));
    if (allocations == before) fail(__LINE__, BRC_OK);
    is_value_of(t, came, 1);
    if (call != PAIR) is_empty = 1;
    TRY(come(t, call, from, 0, &came));
    is_empty = 0;
    is_value_of(t, came, 0);
    TRY(brc_release(t, from));
}

/* A list that is made with its values: memory for them and for the object is asked for, and a place. */
static void make_by_values(brc_thread *t, brc_ref one) {
    brc_value values[5];
    brc_ref list;
    for (int i = 0; i < 5; i++) values[i] = value_of(t, one, i);
    tighten(t, one);
    TRY(brc_new_list_of(t, values, 5, &list));
    for (int i = 4; i >= 0; i--) {
        TRY(brc_list_pop_value(t, list, &values[i]));
        is_value_of(t, values[i], i);
    }
    TRY(brc_release(t, list));
}

/* All calls by values. The first put asks for a place for None: it puts a scalar in one half, and a reference in the other.
 * Each half has half of the calls by which values come out, since the thread's places double with each. */
static void live_by_values(brc_thread *t, int half) {
    brc_ref one, list, dict, mailbox;
    brc_value value;
    long before;
    TRY(brc_new_int(t, NUMBER, &one));
    TRY(brc_new_list(t, &list));
    TRY(brc_new_dict(t, &dict));
    TRY(brc_new_mailbox(t, &mailbox));
    value = value_of(t, one, half);
    tighten(t, one);
    before = allocations;
    TRY(brc_list_push_value(t, list, value));
    if (allocations < before + 2) fail(__LINE__, BRC_OK);       /* for None, and for the list */
    TRY(brc_list_pop_value(t, list, &value));
    is_value_of(t, value, half);
    for (int i = 0; i < ROUNDS; i++) fill_by_values(t, one, list, dict, mailbox, i);
    for (int call = half; call < COMINGS; call += 2) come_by_values(t, one, call);
    make_by_values(t, one);
}

/* A dictionary with memory for its pairs asks for none while they come, and so it is of a list. */
static void fill_room(brc_thread *t) {
    brc_ref dict, list;
    brc_value scalar = brc_of_int(1, 7), old;
    TRY(brc_new_dict_for(t, ROUNDS, &dict));
    TRY(brc_new_list_for(t, ROUNDS, &list));
    TRY(brc_dict_put_int_value(t, dict, 0, scalar, &old));
    is_empty = 1;
    for (int i = 1; i < ROUNDS; i++) {
        brc_status s = brc_dict_put_int_value(t, dict, i, scalar, &old);
        if (s == BRC_OK) s = brc_list_push_value(t, list, scalar);
        if (s != BRC_OK) fail(__LINE__, s);
    }
    is_empty = 0;
    TRY(brc_release(t, list));
    TRY(brc_release(t, dict));
}

/* Bytes that aren't UTF-8, as an object and as a key; texts that are compared; and a value that goes in only if it may. */
static void use_bytes(brc_thread *t) {
    static const uint8_t odd[3] = {0xff, 0, 'x'};
    brc_ref bytes, other, dict, none, old;
    brc_value scalar = brc_of_int(1, 7), came;
    uint8_t to[8];
    uint32_t told_so;
    size_t len;
    TRY(brc_new_bytes(t, odd, sizeof odd, &bytes));
    TRY(brc_new_bytes(t, odd, sizeof odd, &other));
    TRY(brc_bytes_of(t, bytes, to, sizeof to, &len));
    if (len != sizeof odd || memcmp(to, odd, len) != 0) fail(__LINE__, BRC_OK);
    TRY(brc_text_equal(t, bytes, other, &told_so));
    if (told_so != 1) fail(__LINE__, BRC_OK);
    TRY(brc_new_dict(t, &dict));
    TRY(brc_none(t, &none));
    TRY(brc_dict_put_bytes(t, dict, odd, sizeof odd, none, &old));
    TRY(brc_dict_find_bytes(t, dict, odd, sizeof odd, &none));
    TRY(brc_release(t, none));
    TRY(brc_dict_put_bytes_value(t, dict, odd, 2, scalar, &came));
    TRY(brc_dict_put_new_text_value(t, dict, odd + 2, 1, scalar, &came));
    if (came.holds != BRC_NO_VALUE) fail(__LINE__, BRC_OK);
    TRY(brc_dict_swap_if_text(t, dict, odd + 2, 1, scalar, &scalar, &told_so));
    if (told_so != 1) fail(__LINE__, BRC_OK);
    TRY(brc_dict_del_bytes(t, dict, odd, sizeof odd, &none));
    TRY(brc_release(t, none));
    TRY(brc_release(t, bytes));
    TRY(brc_release(t, other));
    TRY(brc_release(t, dict));
}

static void life(void) {
    brc_heap heap;
    brc_thread t, forked;
    brc_ref list, dict, mailbox;
    uint64_t live;
    uint64_t cycles;
    size_t len;
    uint8_t text[64];
    brc_status s;

    TRY(brc_heap_open(&heap, 512));
    TRY(brc_thread_open(&heap, &t));
    TRY(brc_thread_fork(&t, &forked.at));
    TRY(brc_new_list(&t, &list));
    TRY(brc_new_dict(&t, &dict));
    TRY(brc_new_mailbox(&t, &mailbox));
    for (int i = 0; i < ROUNDS; i++) fill(&t, list, dict, mailbox, i);
    for (int i = 0; i < ROUNDS; i++) change(&t, list, dict, i);
    for (int i = 0; i < ROUNDS; i += 2) take(&t, list, dict, mailbox, i);
    live_by_values(&t, 0);
    live_by_values(&forked, 1);
    use_bytes(&t);
    fill_room(&forked);
    brc_poll(&t);
    brc_work(&t, 10);
    TRY(brc_release_all(&t));
    TRY(brc_release_all(&forked));
    while (brc_work(&t, 4096) == 0) { }
    while (brc_work(&forked, 4096) == 0) { }
    TRY(brc_thread_leave(&forked));
    TRY(brc_thread_leave(&t));
    brc_thread_drop(forked);
    brc_thread_drop(t);

    s = brc_heap_close(&heap, &live, &cycles);
    if (s == BRC_OUT_OF_MEMORY) {
        told++;                                 /* the heap has ended without a report */
    } else {
        if (s != BRC_OK || live != 0) fail(__LINE__, s);
        TRY(brc_heap_report(&heap, 0, text, sizeof text, &len));
    }
    brc_heap_drop(heap);
    if (blocks != 0) {
        fprintf(stderr, "nomem: with allocation %ld refused, %ld blocks are left\n", refused_at, blocks);
        exit(1);
    }
}

int main(void) {
    long most;
    life();
    most = allocations;
    for (refused_at = 1; refused_at <= most; refused_at++) {
        allocations = 0;
        life();
    }
    printf("allocations %ld, refusals returned %ld\n", most, told);
    /* (each refusal is returned by the call that met it, once) */
    return told != most;
}
