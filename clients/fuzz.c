/* fuzz: a hostile client of brc.h.
 *
 *     fuzz SEED [STEPS [LOCAL_LIMIT [CELLS]]]
 *
 * Four threads call everything, in an order drawn at random. Their numbers are right, stale, another thread's, another heap's,
 * flipped in one bit, or noise. So are those in their values, among which are scalars with a number's bits. After each call a
 * thread checks what it can know:
 *
 *   - the status is one of those that brc.h names for the call;
 *   - the numbers were STALE or FOREIGN if and only if the thread doesn't hold them, and a scalar never was;
 *   - a refused call has written nothing;
 *   - two texts were equal if and only if they have the same bytes;
 *   - a value that came out is one that some thread put in: its label was given with such bits, or with a reference;
 *   - brc_count is the count of the numbers that the thread holds.
 *
 * At the end each thread releases what it holds, and the heap must count exactly: births less frees are the live objects.
 * The exit status is 0 if all of this held. A seed draws the same calls again, but not the same order of threads. */
#define _POSIX_C_SOURCE 200809L
#include <inttypes.h>
#include <pthread.h>
#include <sched.h>
#include <stdio.h>
#include <stdlib.h>
#include <string.h>
#define BRC_YIELD() sched_yield()
#include "brc.h"

#define CHECK(fact)                                                                                                        \
    do {                                                                                                                   \
        if (!(fact)) { fprintf(stderr, "fuzz: line %d: not so: %s\n", __LINE__, #fact); abort(); }                         \
    } while (0)
#define MUST(call)                                                                                                         \
    do {                                                                                                                   \
        brc_status s_ = (call);                                                                                            \
        if (s_ != BRC_OK) { fprintf(stderr, "fuzz: line %d: %s: %s\n", __LINE__, #call, brc_status_name(s_)); abort(); }   \
    } while (0)

enum { MOST_HELD = 200, MOST_OLD = 64, WORKERS = 4, STATUSES = 80, UNWRITTEN = 0xa5 };

/* ---- The calls, and the statuses that brc.h names for each */

typedef enum {
    RELEASE, PUSH, SEND, POLL, WORK, LEN_OF, INT_OF, KIND_OF, TRUTH_OF, SAME, IDENTITY, TEXT_OF, BYTES_OF, TEXT_IS, TEXT_EQUAL, SET, LEDGER,
    CLAIM, LEAVE, RELEASE_ALL, HAS_INT, HAS_TEXT, PLACE_INT, PLACE_TEXT, PUSH_VALUE, SEND_VALUE,
    /* from here on a call hands out a reference more */
    RETAIN, NONE, TRUTH, GLOBALS, NEW_INT, NEW_TEXT, NEW_BYTES, NEW_LIST, NEW_LIST_OF, NEW_DICT, NEW_DICT_FOR, NEW_LIST_FOR, NEW_MAILBOX,
    POP, TAKE, GET, RECV, PUT_INT, FIND_INT, DEL_INT, PUT_TEXT, FIND_TEXT, DEL_TEXT, PUT_BYTES,
    FIND_BYTES, DEL_BYTES, PAIR,
    /* and from here on a value, if its status is OK */
    POP_VALUE, TAKE_VALUE, GET_VALUE, RECV_VALUE, SET_VALUE, FIND_INT_VALUE, DEL_INT_VALUE, FIND_TEXT_VALUE, DEL_TEXT_VALUE,
    FIND_BYTES_VALUE, DEL_BYTES_VALUE,
    PAIR_VALUE, SWAP_IF, SWAP_IF_INT, SWAP_IF_TEXT,
    /* or nothing */
    PUT_VALUE, PUT_INT_VALUE, PUT_TEXT_VALUE, PUT_BYTES_VALUE, PUT_NEW_INT_VALUE, PUT_NEW_TEXT_VALUE, CALLS
} call_t;

/* A set of statuses. */
#define S(status) (UINT64_C(1) << ((status) < 64 ? (status) : (status) - 32))
#define GIVEN (S(BRC_OK) | S(BRC_GONE))
#define NUMBER (GIVEN | S(BRC_FOREIGN) | S(BRC_STALE))
#define PLACE (S(BRC_FRAME_FULL) | S(BRC_OUT_OF_MEMORY))
#define BORN (GIVEN | PLACE | S(BRC_LEDGER_FULL) | S(BRC_HEAP_FULL))
#define LOCKED (NUMBER | S(BRC_BUSY))
#define OBJECT (LOCKED | S(BRC_WRONG_KIND))
#define ENTERS (OBJECT | S(BRC_SAME))
#define VALUE (ENTERS | PLACE | S(BRC_NOT_VALUE))

/* How often a call is drawn, how many numbers it is given, and how it may end. */
static const struct { int weight, numbers; uint64_t statuses; } ABOUT[CALLS] = {
    [RELEASE] = {6, 1, NUMBER},
    [PUSH] = {2, 2, ENTERS | S(BRC_FULL) | S(BRC_OUT_OF_MEMORY)},
    [SEND] = {2, 2, ENTERS | S(BRC_FULL) | S(BRC_OUT_OF_MEMORY)},
    [POLL] = {2, 0, S(BRC_OK)},
    [WORK] = {2, 0, S(BRC_OK)},
    [LEN_OF] = {1, 1, OBJECT},
    [INT_OF] = {1, 1, OBJECT},
    [KIND_OF] = {1, 1, LOCKED},
    [TRUTH_OF] = {1, 1, NUMBER | S(BRC_WRONG_KIND)},
    [SAME] = {1, 2, NUMBER},
    [IDENTITY] = {1, 1, NUMBER},
    [TEXT_OF] = {1, 1, OBJECT},
    [BYTES_OF] = {1, 1, OBJECT},
    [TEXT_IS] = {1, 1, OBJECT},
    [TEXT_EQUAL] = {1, 2, OBJECT},
    [SET] = {2, 2, ENTERS | S(BRC_NO_SUCH_PLACE)},
    [LEDGER] = {1, 0, GIVEN},
    [CLAIM] = {1, 0, GIVEN},
    [LEAVE] = {1, 0, GIVEN | S(BRC_NOT_IDLE) | S(BRC_BUSY) | S(BRC_OUT_OF_MEMORY)},
    [RELEASE_ALL] = {1, 0, GIVEN},
    [HAS_INT] = {1, 1, OBJECT},
    [HAS_TEXT] = {1, 1, OBJECT | S(BRC_NOT_TEXT)},
    [PLACE_INT] = {1, 1, OBJECT | S(BRC_NO_SUCH_KEY)},
    [PLACE_TEXT] = {1, 1, OBJECT | S(BRC_NOT_TEXT) | S(BRC_NO_SUCH_KEY)},
    [PUSH_VALUE] = {4, 2, VALUE | S(BRC_FULL)},
    [SEND_VALUE] = {4, 2, VALUE | S(BRC_FULL)},
    [RETAIN] = {2, 1, NUMBER | PLACE},
    [NONE] = {1, 0, GIVEN | PLACE},
    [TRUTH] = {1, 0, GIVEN | PLACE},
    [GLOBALS] = {2, 0, GIVEN | PLACE},
    [NEW_INT] = {4, 0, BORN},
    [NEW_TEXT] = {1, 0, BORN | S(BRC_NOT_TEXT)},
    [NEW_BYTES] = {1, 0, BORN},
    [NEW_LIST] = {2, 0, BORN},
    [NEW_LIST_OF] = {4, 2, BORN | NUMBER | S(BRC_SAME) | S(BRC_NOT_VALUE)},
    [NEW_DICT] = {1, 0, BORN},
    [NEW_DICT_FOR] = {1, 0, BORN},
    [NEW_LIST_FOR] = {1, 0, BORN},
    [NEW_MAILBOX] = {1, 0, BORN},
    [POP] = {2, 1, OBJECT | PLACE | S(BRC_NO_SUCH_PLACE)},
    [TAKE] = {2, 1, OBJECT | PLACE | S(BRC_NO_SUCH_PLACE)},
    [GET] = {2, 1, OBJECT | PLACE | S(BRC_NO_SUCH_PLACE)},
    [RECV] = {2, 1, OBJECT | PLACE | S(BRC_NO_SUCH_PLACE)},
    [PUT_INT] = {2, 2, ENTERS | S(BRC_FULL) | S(BRC_OUT_OF_MEMORY)},
    [FIND_INT] = {2, 1, OBJECT | PLACE | S(BRC_NO_SUCH_KEY)},
    [DEL_INT] = {2, 1, OBJECT | PLACE | S(BRC_NO_SUCH_KEY)},
    [PUT_TEXT] = {2, 2, ENTERS | S(BRC_NOT_TEXT) | S(BRC_FULL) | S(BRC_OUT_OF_MEMORY)},
    [FIND_TEXT] = {2, 1, OBJECT | PLACE | S(BRC_NOT_TEXT) | S(BRC_NO_SUCH_KEY)},
    [DEL_TEXT] = {2, 1, OBJECT | PLACE | S(BRC_NOT_TEXT) | S(BRC_NO_SUCH_KEY)},
    [PUT_BYTES] = {1, 2, ENTERS | S(BRC_FULL) | S(BRC_OUT_OF_MEMORY)},
    [FIND_BYTES] = {1, 1, OBJECT | PLACE | S(BRC_NO_SUCH_KEY)},
    [DEL_BYTES] = {1, 1, OBJECT | PLACE | S(BRC_NO_SUCH_KEY)},
    [PAIR] = {2, 1, OBJECT | PLACE | S(BRC_NO_SUCH_PLACE)},
    [POP_VALUE] = {2, 1, OBJECT | PLACE | S(BRC_NO_SUCH_PLACE)},
    [TAKE_VALUE] = {2, 1, OBJECT | PLACE | S(BRC_NO_SUCH_PLACE)},
    [GET_VALUE] = {2, 1, OBJECT | PLACE | S(BRC_NO_SUCH_PLACE)},
    [RECV_VALUE] = {2, 1, OBJECT | PLACE | S(BRC_NO_SUCH_PLACE)},
    [SET_VALUE] = {2, 2, VALUE | S(BRC_NO_SUCH_PLACE)},
    [FIND_INT_VALUE] = {2, 1, OBJECT | PLACE | S(BRC_NO_SUCH_KEY)},
    [DEL_INT_VALUE] = {2, 1, OBJECT | PLACE | S(BRC_NO_SUCH_KEY)},
    [FIND_TEXT_VALUE] = {2, 1, OBJECT | PLACE | S(BRC_NOT_TEXT) | S(BRC_NO_SUCH_KEY)},
    [DEL_TEXT_VALUE] = {2, 1, OBJECT | PLACE | S(BRC_NOT_TEXT) | S(BRC_NO_SUCH_KEY)},
    [FIND_BYTES_VALUE] = {1, 1, OBJECT | PLACE | S(BRC_NO_SUCH_KEY)},
    [DEL_BYTES_VALUE] = {1, 1, OBJECT | PLACE | S(BRC_NO_SUCH_KEY)},
    [PAIR_VALUE] = {2, 1, OBJECT | PLACE | S(BRC_NO_SUCH_PLACE)},
    [SWAP_IF] = {3, 2, VALUE | S(BRC_NO_SUCH_PLACE)},
    [SWAP_IF_INT] = {3, 2, VALUE | S(BRC_NO_SUCH_KEY)},
    [SWAP_IF_TEXT] = {3, 2, VALUE | S(BRC_NOT_TEXT) | S(BRC_NO_SUCH_KEY)},
    [PUT_VALUE] = {2, 2, VALUE | S(BRC_NO_SUCH_PLACE) | S(BRC_FULL)},
    [PUT_INT_VALUE] = {4, 2, VALUE | S(BRC_FULL)},
    [PUT_TEXT_VALUE] = {4, 2, VALUE | S(BRC_NOT_TEXT) | S(BRC_FULL)},
    [PUT_BYTES_VALUE] = {2, 2, VALUE | S(BRC_FULL)},
    [PUT_NEW_INT_VALUE] = {3, 2, VALUE | S(BRC_FULL)},
    [PUT_NEW_TEXT_VALUE] = {3, 2, VALUE | S(BRC_NOT_TEXT) | S(BRC_FULL)},
};

/* What a call is given, and where it writes. */
typedef struct {
    brc_ref one, other;
    brc_value put;              /* a scalar; or `other`, as a reference or as what no value holds */
    brc_value expected;         /* so of a number, which may be `other` */
    int64_t key;
    uint32_t index, word;
    uint8_t bytes[3];
    size_t len, room;
    int is_text;                /* whether the bytes are UTF-8 */
} inputs_t;

typedef struct {
    brc_ref ref;
    brc_value came;
    int64_t value;
    uint64_t allocs, frees, identity;
    size_t len;
    uint32_t word;
    brc_key key;
    uint8_t text[16];
} outs_t;

/* Labels: a reference's, and those of scalars that have the bits which belong to the label. */
enum { OF_REFERENCE = 1, OF_BITS = 2 };

static uint64_t bits_of(uint32_t label) { return (label + UINT64_C(1)) * UINT64_C(0x9e3779b97f4a7c15); }

/* ---- A thread, and what it knows */

typedef struct {
    brc_thread thread;
    uint64_t seed;
    brc_ref held[MOST_HELD];    /* the numbers that it holds */
    int count;
    pthread_mutex_t lock;       /* of `old`, which other workers read */
    brc_ref old[MOST_OLD];      /* numbers that it held */
    int has_dropped;            /* a thread that it forked, and dropped without a word */
    uint64_t done, scalars, refused[STATUSES];
} worker_t;

static worker_t workers[WORKERS];
static brc_ref foreign;         /* of another heap */
static int steps = 100000;

/* xorshift64 (Marsaglia, 2003) */
static uint64_t draw(worker_t *w, uint64_t below) {
    w->seed ^= w->seed << 13;
    w->seed ^= w->seed >> 7;
    w->seed ^= w->seed << 17;
    return below ? w->seed % below : w->seed;
}

static int place_of(const worker_t *w, brc_ref ref) {
    for (int i = 0; i < w->count; i++)
        if (w->held[i] == ref) return i;
    return -1;
}

static brc_ref one_held(worker_t *w) { return w->count ? w->held[draw(w, (uint64_t)w->count)] : BRC_NONE; }

static brc_ref one_old(worker_t *w, worker_t *of) {
    brc_ref ref;
    pthread_mutex_lock(&of->lock);
    ref = of->old[draw(w, MOST_OLD)];
    pthread_mutex_unlock(&of->lock);
    return ref;
}

static brc_ref any_number(worker_t *w) {
    switch (draw(w, 10)) {
    case 0: return draw(w, 0);
    case 1: return one_old(w, w);
    case 2: return one_old(w, &workers[draw(w, WORKERS)]);
    case 3: return w->count ? one_held(w) ^ UINT64_C(1) << draw(w, 64) : foreign;
    default: return one_held(w);
    }
}

/* The number is held no more. */
static void loses(worker_t *w, brc_ref ref) {
    int at = place_of(w, ref);
    CHECK(at >= 0);
    pthread_mutex_lock(&w->lock);
    w->old[draw(w, MOST_OLD)] = ref;
    pthread_mutex_unlock(&w->lock);
    w->held[at] = w->held[--w->count];
}

static void gains(worker_t *w, brc_ref ref) {
    CHECK(ref != BRC_NONE && place_of(w, ref) < 0 && w->count < MOST_HELD);
    w->held[w->count++] = ref;
}

/* ---- One call */

static call_t any_call(worker_t *w) {
    int last = w->count < MOST_HELD ? CALLS : RETAIN, total = 0, at;
    for (int i = 0; i < last; i++) total += ABOUT[i].weight;
    at = (int)draw(w, (uint64_t)total);
    for (int i = 0; i < last; i++) {
        if (at < ABOUT[i].weight) return (call_t)i;
        at -= ABOUT[i].weight;
    }
    return RELEASE;
}

static brc_value any_value(worker_t *w, brc_ref ref) {
    uint32_t label = (uint32_t)draw(w, 0) & ~(uint32_t)(OF_REFERENCE | OF_BITS);
    brc_value value;
    switch (draw(w, 12)) {
    case 0: return brc_of_bits(label, draw(w, 0));
    case 1: return brc_of_bits(label, ref);
    case 2:
        value = brc_of_ref(label, ref);
        value.holds += 1 + (uint32_t)(draw(w, 2) ? draw(w, 3) : draw(w, UINT32_MAX - BRC_REFERENCE));
        return value;
    case 3:
    case 4:
    case 5:
        value = brc_of_bits(label | OF_BITS, bits_of(label | OF_BITS));
        if (draw(w, 4) == 0) value.holds = BRC_NO_VALUE;
        return value;
    default: return brc_of_ref(label | OF_REFERENCE, ref);
    }
}

/* The kind that a call on a container, or on two texts, is for, else 0. */
static brc_kind kind_for(call_t call) {
    switch (call) {
    case PUSH: case POP: case TAKE: case GET: case SET:
    case PUSH_VALUE: case POP_VALUE: case TAKE_VALUE: case GET_VALUE: case SET_VALUE: case PUT_VALUE:
    case SWAP_IF: return BRC_LIST;
    case SEND: case RECV: case SEND_VALUE: case RECV_VALUE: return BRC_MAILBOX;
    case PUT_INT: case FIND_INT: case DEL_INT: case PUT_TEXT: case FIND_TEXT: case DEL_TEXT: case PAIR:
    case HAS_INT: case HAS_TEXT: case PLACE_INT: case PLACE_TEXT:
    case PUT_INT_VALUE: case FIND_INT_VALUE: case DEL_INT_VALUE: case PUT_TEXT_VALUE: case FIND_TEXT_VALUE:
    case DEL_TEXT_VALUE: case PUT_BYTES: case FIND_BYTES: case DEL_BYTES: case PUT_BYTES_VALUE: case FIND_BYTES_VALUE:
    case DEL_BYTES_VALUE: case PAIR_VALUE: case PUT_NEW_INT_VALUE: case PUT_NEW_TEXT_VALUE:
    case SWAP_IF_INT: case SWAP_IF_TEXT: return BRC_DICT;
    case TEXT_EQUAL: return BRC_TEXT;
    default: return 0;
    }
}

/* The number is any; in every other such call it names an object of its kind, if some tries find one. */
static brc_ref some_number(worker_t *w, call_t call) {
    brc_ref ref = any_number(w);
    brc_kind kind = kind_for(call), found = 0;
    int tries = kind && draw(w, 2) ? 8 : 0;
    while (tries-- > 0 && (brc_kind_of(&w->thread, ref, &found) != BRC_OK || found != kind)) ref = one_held(w);
    return ref;
}

static inputs_t any_inputs(worker_t *w, call_t call) {
    inputs_t in;
    in.one = some_number(w, call);
    in.other = draw(w, 50) == 0 ? in.one : call == TEXT_EQUAL ? some_number(w, call) : any_number(w);
    in.put = any_value(w, in.other);
    in.expected = draw(w, 3) ? brc_of_bits(OF_BITS, bits_of(OF_BITS)) : any_value(w, any_number(w));
    if (draw(w, 3) == 0) in.put = in.expected;
    if (in.put.holds == BRC_REFERENCE) in.other = in.put.bits;
    in.key = (int64_t)draw(w, 8);
    in.index = (uint32_t)draw(w, 4);
    in.word = (uint32_t)draw(w, 0);
    in.bytes[0] = (uint8_t)('a' + draw(w, 4));
    in.bytes[1] = (uint8_t)('a' + draw(w, 4));
    in.bytes[2] = (uint8_t)draw(w, 256);
    in.len = (size_t)draw(w, 4);
    in.room = (size_t)draw(w, 9);
    in.is_text = in.len < 3 || in.bytes[2] < 128;
    return in;
}

/* The value goes in and comes out in one variable: a refusal leaves it as it was. */
static brc_status swap_if(brc_thread *t, call_t call, const inputs_t *in, outs_t *out) {
    brc_value value = in->put;
    brc_status s;
    if (call == SWAP_IF) s = brc_list_swap_if(t, in->one, in->index, in->expected, &value, &out->word);
    else if (call == SWAP_IF_INT) s = brc_dict_swap_if_int(t, in->one, in->key, in->expected, &value, &out->word);
    else s = brc_dict_swap_if_text(t, in->one, in->bytes, in->len, in->expected, &value, &out->word);
    if (s == BRC_OK) out->came = value;
    else CHECK(memcmp(&value, &in->put, sizeof value) == 0);
    return s;
}

static brc_status make_call(worker_t *w, call_t call, const inputs_t *in, outs_t *out) {
    brc_thread *t = &w->thread;
    const brc_ref one = in->one, other = in->other;
    const brc_value values[] = {brc_of_ref(OF_REFERENCE, one), in->put, brc_of_bits(OF_BITS, bits_of(OF_BITS))};
    switch (call) {
    case RELEASE: return brc_release(t, one);
    case PUSH: return brc_list_push(t, one, other);
    case SEND: return brc_send(t, one, other);
    case POLL: brc_poll(t); return BRC_OK;
    case WORK: brc_work(t, in->word % 100); return BRC_OK;
    case LEN_OF: return brc_len_of(t, one, &out->len);
    case INT_OF: return brc_int_of(t, one, &out->value);
    case KIND_OF: return brc_kind_of(t, one, &out->word);
    case TRUTH_OF: return brc_truth_of(t, one, &out->word);
    case SAME: return brc_same(t, one, other, &out->word);
    case IDENTITY: return brc_identity(t, one, &out->identity);
    case TEXT_OF: return brc_text_of(t, one, out->text, in->room, &out->len);
    case BYTES_OF: return brc_bytes_of(t, one, out->text, in->room, &out->len);
    case TEXT_IS: return brc_text_is(t, one, in->bytes, in->len, &out->word);
    case TEXT_EQUAL: return brc_text_equal(t, one, other, &out->word);
    case SET: return brc_list_set(t, one, in->index, other, &out->ref);
    case LEDGER: return brc_ledger(t, &out->allocs, &out->frees);
    case CLAIM: return brc_claim(t, in->word, in->word & 1);
    case LEAVE: return brc_thread_leave(t);
    case RETAIN: return brc_retain(t, one, &out->ref);
    case NONE: return brc_none(t, &out->ref);
    case TRUTH: return brc_truth(t, in->word & 2, &out->ref);
    case GLOBALS: return brc_globals(t, &out->ref);
    case NEW_INT: return brc_new_int(t, (int64_t)in->word - 100, &out->ref);
    case NEW_TEXT: return brc_new_text(t, in->bytes, in->len, &out->ref);
    case NEW_BYTES: return brc_new_bytes(t, in->bytes, in->len, &out->ref);
    case NEW_LIST: return brc_new_list(t, &out->ref);
    case NEW_LIST_OF: return brc_new_list_of(t, values, 3, &out->ref);
    case NEW_DICT: return brc_new_dict(t, &out->ref);
    case NEW_LIST_FOR: return brc_new_list_for(t, in->word % 100, &out->ref);
    case NEW_DICT_FOR: return brc_new_dict_for(t, in->word % 100, &out->ref);
    case NEW_MAILBOX: return brc_new_mailbox(t, &out->ref);
    case POP: return brc_list_pop(t, one, &out->ref);
    case TAKE: return brc_list_take(t, one, in->index, &out->ref);
    case GET: return brc_list_get(t, one, in->index, &out->ref);
    case RECV: return brc_recv(t, one, &out->ref);
    case PUT_INT: return brc_dict_put_int(t, one, in->key, other, &out->ref);
    case FIND_INT: return brc_dict_find_int(t, one, in->key, &out->ref);
    case DEL_INT: return brc_dict_del_int(t, one, in->key, &out->ref);
    case PUT_TEXT: return brc_dict_put_text(t, one, in->bytes, in->len, other, &out->ref);
    case FIND_TEXT: return brc_dict_find_text(t, one, in->bytes, in->len, &out->ref);
    case DEL_TEXT: return brc_dict_del_text(t, one, in->bytes, in->len, &out->ref);
    case PUT_BYTES: return brc_dict_put_bytes(t, one, in->bytes, in->len, other, &out->ref);
    case FIND_BYTES: return brc_dict_find_bytes(t, one, in->bytes, in->len, &out->ref);
    case DEL_BYTES: return brc_dict_del_bytes(t, one, in->bytes, in->len, &out->ref);
    case PAIR: return brc_dict_pair(t, one, in->index, &out->key, out->text, in->room, &out->ref);
    case HAS_INT: return brc_dict_has_int(t, one, in->key, &out->word);
    case HAS_TEXT: return brc_dict_has_text(t, one, in->bytes, in->len, &out->word);
    case PLACE_INT: return brc_dict_place_int(t, one, in->key, &out->word);
    case PLACE_TEXT: return brc_dict_place_text(t, one, in->bytes, in->len, &out->word);
    case RELEASE_ALL: return brc_release_all(t);
    case PUSH_VALUE: return brc_list_push_value(t, one, in->put);
    case SEND_VALUE: return brc_send_value(t, one, in->put);
    case POP_VALUE: return brc_list_pop_value(t, one, &out->came);
    case TAKE_VALUE: return brc_list_take_value(t, one, in->index, &out->came);
    case GET_VALUE: return brc_list_get_value(t, one, in->index, &out->came);
    case RECV_VALUE: return brc_recv_value(t, one, &out->came);
    case SET_VALUE: return brc_list_set_value(t, one, in->index, in->put, &out->came);
    case FIND_INT_VALUE: return brc_dict_find_int_value(t, one, in->key, &out->came);
    case DEL_INT_VALUE: return brc_dict_del_int_value(t, one, in->key, &out->came);
    case FIND_TEXT_VALUE: return brc_dict_find_text_value(t, one, in->bytes, in->len, &out->came);
    case DEL_TEXT_VALUE: return brc_dict_del_text_value(t, one, in->bytes, in->len, &out->came);
    case FIND_BYTES_VALUE: return brc_dict_find_bytes_value(t, one, in->bytes, in->len, &out->came);
    case DEL_BYTES_VALUE: return brc_dict_del_bytes_value(t, one, in->bytes, in->len, &out->came);
    case PUT_BYTES_VALUE: return brc_dict_put_bytes_value(t, one, in->bytes, in->len, in->put, &out->came);
    case PAIR_VALUE:
        return brc_dict_pair_value(t, one, in->index, &out->key, out->text, in->room, &out->came, &out->word);
    case PUT_VALUE: return brc_list_put_value(t, one, in->index, in->put, &out->came);
    case PUT_INT_VALUE: return brc_dict_put_int_value(t, one, in->key, in->put, &out->came);
    case PUT_TEXT_VALUE: return brc_dict_put_text_value(t, one, in->bytes, in->len, in->put, &out->came);
    case PUT_NEW_INT_VALUE: return brc_dict_put_new_int_value(t, one, in->key, in->put, &out->came);
    case PUT_NEW_TEXT_VALUE: return brc_dict_put_new_text_value(t, one, in->bytes, in->len, in->put, &out->came);
    case SWAP_IF: case SWAP_IF_INT: case SWAP_IF_TEXT: return swap_if(t, call, in, out);
    default: abort();
    }
}

static int has_bytes(call_t call) {
    return call == NEW_TEXT || call == PUT_TEXT || call == FIND_TEXT || call == DEL_TEXT || call == PUT_TEXT_VALUE ||
           call == FIND_TEXT_VALUE || call == DEL_TEXT_VALUE || call == HAS_TEXT || call == PLACE_TEXT ||
           call == PUT_NEW_TEXT_VALUE || call == SWAP_IF_TEXT;
}

static int expects(call_t call) { return call == SWAP_IF || call == SWAP_IF_INT || call == SWAP_IF_TEXT; }

static int puts_a_value(call_t call) {
    return call == PUSH_VALUE || call == SEND_VALUE || call == SET_VALUE || call == NEW_LIST_OF || expects(call) || call >= PUT_VALUE;
}

static int puts_a_reference(call_t call, const inputs_t *in) {
    return call == PUSH || call == SEND || call == SET || call == PUT_INT || call == PUT_TEXT || call == PUT_BYTES ||
           (puts_a_value(call) && in->put.holds == BRC_REFERENCE);
}

/* Whether the outs are as they were before the call, which has filled them with one byte. */
static int is_unwritten(const outs_t *out) {
    const uint8_t *bytes = (const uint8_t *)out;
    for (size_t i = 0; i < sizeof *out; i++)
        if (bytes[i] != UNWRITTEN) return 0;
    return 1;
}

/* Holds the status against what the thread knows. It isn't GONE. */
static void check_status(worker_t *w, call_t call, const inputs_t *in, brc_status s) {
    int holds_one = ABOUT[call].numbers < 1 || place_of(w, in->one) >= 0;
    int needs_one = ABOUT[call].numbers < 2 || (puts_a_value(call) && in->put.holds != BRC_REFERENCE);
    int holds_all = holds_one && (needs_one || place_of(w, in->other) >= 0);
    int not_value = in->put.holds > BRC_REFERENCE || (expects(call) && in->expected.holds > BRC_REFERENCE);
    if (expects(call) && in->expected.holds == BRC_REFERENCE) holds_all = holds_all && place_of(w, in->expected.bits) >= 0;
    if (has_bytes(call) && !in->is_text) {
        CHECK(s == BRC_NOT_TEXT);
    } else if (puts_a_value(call) && not_value) {
        CHECK(s == BRC_NOT_VALUE);
    } else if (!holds_all) {
        CHECK(s == BRC_STALE || s == BRC_FOREIGN);
    } else {
        CHECK(s != BRC_STALE && s != BRC_FOREIGN && s != BRC_NOT_TEXT && s != BRC_NOT_VALUE);
        CHECK(call == SAME || (s == BRC_SAME) == (puts_a_reference(call, in) && in->one == in->other));
    }
}

/* The value that came out. What was put without one, and None that was put with a label, have bits 0. */
static void check_value(worker_t *w, call_t call, brc_value came) {
    if (came.holds == BRC_REFERENCE) {
        CHECK(came.label == 0 || (came.label & OF_REFERENCE) != 0);
        gains(w, came.bits);
    } else if (came.holds == BRC_SCALAR) {
        CHECK(came.bits == 0 || (came.label & OF_REFERENCE) == 0);
        CHECK(came.bits == bits_of(came.label) || (came.label & OF_BITS) == 0);
        w->scalars++;
    } else {
        CHECK(came.holds == BRC_NO_VALUE && call >= PUT_VALUE);
    }
}

/* The two are one object, or texts or other bytes. These never change, so both are read once more. */
static void check_texts(worker_t *w, const inputs_t *in, uint32_t is_equal) {
    uint32_t is_one;
    uint8_t texts[2][16];
    size_t lens[2];
    brc_status s;
    MUST(brc_same(&w->thread, in->one, in->other, &is_one));
    if (is_one) {
        CHECK(is_equal == 1);
        return;
    }
    BRC_WAIT(&w->thread, s, brc_bytes_of(&w->thread, in->one, texts[0], sizeof texts[0], &lens[0]));
    MUST(s);
    BRC_WAIT(&w->thread, s, brc_bytes_of(&w->thread, in->other, texts[1], sizeof texts[1], &lens[1]));
    MUST(s);
    CHECK(lens[0] <= sizeof texts[0]);
    CHECK(is_equal == (lens[0] == lens[1] && memcmp(texts[0], texts[1], lens[0]) == 0));
}

/* A call, and its checks. Returns whether the thread has left, or began to. */
static int turn(worker_t *w) {
    call_t call = any_call(w);
    inputs_t in = any_inputs(w, call);
    outs_t out;
    brc_status s;
    /* (a thread leaves seldom, or it wouldn't live long; and it would hold little) */
    if (call == LEAVE && w->count == 0 && draw(w, 5000) != 0) return 0;
    if (call == RELEASE_ALL && draw(w, 20) != 0) return 0;
    memset(&out, UNWRITTEN, sizeof out);
    s = make_call(w, call, &in, &out);
    CHECK(s < STATUSES && (ABOUT[call].statuses & S(s)) != 0);
    if (s == BRC_GONE || (call == LEAVE && s != BRC_NOT_IDLE)) {
        CHECK(w->count == 0);
        return 1;               /* (`run` goes on with a leaving that was Busy) */
    }
    if (call == LEAVE) CHECK(w->count > 0);             /* (a reference to None that the thread keeps is no reason) */
    else check_status(w, call, &in, s);
    if (s != BRC_OK) {
        w->refused[s]++;
        CHECK(is_unwritten(&out));
    } else {
        w->done++;
        if (call == RELEASE) loses(w, in.one);
        if (puts_a_reference(call, &in)) loses(w, in.other);
        if (call == NEW_LIST_OF) loses(w, in.one);
        while (call == RELEASE_ALL && w->count > 0) loses(w, w->held[0]);
        if (call >= POP_VALUE) {
            check_value(w, call, out.came);
        } else if (call >= RETAIN || call == SET) {
            if ((call == PUT_INT || call == PUT_TEXT || call == PUT_BYTES) && out.ref == BRC_NONE) {
                /* there was no value beside the key */
            } else {
                gains(w, out.ref);
            }
        }
        if (call == PAIR_VALUE) CHECK(in.index < out.word);
        if (call == TEXT_EQUAL) check_texts(w, &in, out.word);
        if (call == TEXT_OF || call == BYTES_OF || call == PAIR || call == PAIR_VALUE)
            for (size_t i = in.room; i < sizeof out.text; i++) CHECK(out.text[i] == UNWRITTEN);
    }
    CHECK(brc_count(&w->thread) == (size_t)w->count);
    return 0;
}

/* A thread is forked, makes an object and a list with a scalar, and is dropped without a word. */
static void drop_one(worker_t *w) {
    brc_thread forked;
    brc_ref made;
    if (w->has_dropped || draw(w, 1000) != 0) return;
    if (brc_thread_fork(&w->thread, &forked.at) != BRC_OK) return;
    w->has_dropped = 1;
    if (brc_new_int(&forked, 77777, &made) == BRC_OK) CHECK(brc_release(&w->thread, made) == BRC_FOREIGN);
    if (brc_new_list(&forked, &made) == BRC_OK) MUST(brc_list_push_value(&forked, made, brc_of_bits(0, 7)));
    brc_thread_drop(forked);
}

static void *run(void *given) {
    worker_t *w = given;
    brc_ref made;
    brc_status s;
    for (int i = 0; i < steps && !turn(w); i++) drop_one(w);
    while (w->count > 0) {
        brc_ref ref = w->held[--w->count];
        MUST(brc_release(&w->thread, ref));
        CHECK(brc_release(&w->thread, ref) == BRC_STALE);
    }
    BRC_WAIT(&w->thread, s, brc_thread_leave(&w->thread));
    CHECK(s == BRC_OK || s == BRC_GONE);
    CHECK(brc_new_int(&w->thread, 5, &made) == BRC_GONE && brc_thread_leave(&w->thread) == BRC_GONE);
    return NULL;
}

/* ---- The whole */

/* Takes all pairs out of the globals. */
static void clear_globals(brc_thread *t) {
    brc_ref globals, gone;
    brc_value value;
    brc_key key;
    uint8_t name[8];
    uint32_t pairs;
    size_t len;
    brc_status s;
    MUST(brc_globals(t, &globals));
    while ((s = brc_dict_pair_value(t, globals, 0, &key, name, sizeof name, &value, &pairs)) == BRC_OK) {
        MUST(brc_len_of(t, globals, &len));
        CHECK(len == pairs);
        if (key.is_text) MUST(brc_dict_del_bytes(t, globals, name, key.len, &gone));
        else MUST(brc_dict_del_int(t, globals, key.number, &gone));
        MUST(brc_release(t, gone));
        MUST(brc_value_clear(t, &value));
    }
    CHECK(s == BRC_NO_SUCH_PLACE);
    MUST(brc_release(t, globals));
}

int main(int argc, char **argv) {
    brc_heap heap, second;
    brc_thread root, second_thread;
    pthread_t threads[WORKERS];
    uint64_t seed = argc > 1 ? strtoull(argv[1], NULL, 10) : 1, done = 0, scalars = 0;
    uint64_t refused[STATUSES] = {0};
    uint64_t allocs = 0, frees = 0, live = 0;
    uint32_t local_limit = argc > 3 ? (uint32_t)strtoul(argv[3], NULL, 10) : 4294967294u;
    uint32_t cells = argc > 4 ? (uint32_t)strtoul(argv[4], NULL, 10) : 2048, registered = 0, left = 0, dropped = 0;
    uint64_t cycles = 0;
    brc_status s;
    if (argc > 2) steps = atoi(argv[2]);

    CHECK(brc_heap_new(&heap.at, 511, 1, 0) == BRC_BAD_OPTIONS && brc_heap_new(&heap.at, 65537, 1, 0) == BRC_BAD_OPTIONS);
    CHECK(brc_heap_new(&heap.at, 512, 0, 0) == BRC_BAD_OPTIONS);
    MUST(brc_heap_new(&second.at, 512, 1, 1024));
    MUST(brc_thread_open(&second, &second_thread));
    MUST(brc_new_int(&second_thread, 1234, &foreign));
    MUST(brc_heap_new(&heap.at, cells, local_limit, 0));
    MUST(brc_thread_open(&heap, &root));
    CHECK(brc_release(&root, foreign) == BRC_FOREIGN && brc_release(&root, BRC_NONE) == BRC_FOREIGN);
    CHECK(brc_heap_close(&heap, &live, &cycles) == BRC_MISSING);

    for (int i = 0; i < WORKERS; i++) {
        workers[i].seed = seed * WORKERS + (uint64_t)i + UINT64_C(88172645463325252);
        pthread_mutex_init(&workers[i].lock, NULL);
        MUST(brc_thread_open(&heap, &workers[i].thread));
    }
    for (int i = 0; i < WORKERS; i++) CHECK(pthread_create(&threads[i], NULL, run, &workers[i]) == 0);
    for (int i = 0; i < WORKERS; i++) CHECK(pthread_join(threads[i], NULL) == 0);
    for (int i = 0; i < WORKERS; i++) {
        brc_thread_drop(workers[i].thread);
        done += workers[i].done;
        scalars += workers[i].scalars;
        dropped += (uint32_t)workers[i].has_dropped;
        for (int k = 0; k < STATUSES; k++) refused[k] += workers[i].refused[k];
    }

    clear_globals(&root);
    BRC_WAIT(&root, s, brc_thread_leave(&root));
    MUST(s);
    brc_thread_drop(root);
    MUST(brc_heap_counts(&heap, &registered, &left, &allocs, &frees));
    s = brc_heap_close(&heap, &live, &cycles);
    /* (a thread that was dropped at a moment at which it couldn't leave is missing for good) */
    CHECK(left == registered ? s == BRC_OK : s == BRC_MISSING && registered - left <= dropped);
    CHECK(s != BRC_OK || allocs - frees == live);
    CHECK(s != BRC_OK || (brc_heap_counts(&heap, &registered, &left, &allocs, &frees) == BRC_GONE));
    brc_heap_drop(heap);
    brc_heap_drop(second);
    brc_thread_drop(second_thread);

    printf("seed %" PRIu64 ": done %" PRIu64 ", scalars %" PRIu64, seed, done, scalars);
    printf(", threads %" PRIu32 " of %" PRIu32, left, registered);
    printf(", made %" PRIu64 ", freed %" PRIu64, allocs, frees);
    if (s == BRC_OK) printf(", live %" PRIu64 ", cycles %" PRIu64, live, cycles);
    else printf(", not closed: %" PRIu32 " dropped threads are missing", registered - left);
    printf("; refused:");
    for (int k = 0; k < STATUSES; k++)
        if (refused[k] != 0) printf(" %s %" PRIu64, brc_status_name((brc_status)k), refused[k]);
    puts("");
    return 0;
}
