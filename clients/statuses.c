/* statuses: each status of each call of brc.h, in the order in which brc.h lists them.
 *
 * A row is a call in a situation, and the status that it must return. The conditions of that status hold there, and those of
 * as many later ones as can hold at once. No earlier one holds. So a call that looks in another order fails a row. After a
 * refusal all must be as before: out parameters, numbers, counts, lengths, ledgers, blocks of memory. A put by value has its
 * rows with a reference, with a scalar, and with what is none of the three.
 *
 * It is linked with
 *
 *     -Wl,--wrap=malloc,--wrap=realloc,--wrap=free
 *
 * so that the allocations of the library come here. For OUT_OF_MEMORY they are refused. For BUSY one of another thread of the
 * machine is stopped: its call has the object locked, or the register of threads. Another call says whether it has. If it
 * hasn't, a row that wants BUSY is not seen, and that is no failure.
 *
 * Two statuses have no row. LEDGER_FULL comes after 2^47 objects. OUT_OF_MEMORY of brc_thread_leave comes if a count of 2^63
 * overflows, since a leave asks for no memory. For the same reason it can't be stopped: the last BUSY of brc_heap_close is
 * tried some times, and is seen or not. */
#define _POSIX_C_SOURCE 200809L
#include <pthread.h>
#include <sched.h>
#include <stdio.h>
#include <stdlib.h>
#include <string.h>
#include <time.h>
#include "brc.h"

enum { REFERENCES = 65536, ENTRIES = 1048576, MOST_THREADS = 64, CALLS = 84 };
enum { LABEL = 77, UNWRITTEN = 0xa5, DEAD_ENTRIES = 100000, TRIES = 10000000, SECONDS = 60 };

/* ---- What is said */

static const char *call_now, *what_now;     /* the row that is played */
static const char *played[CALLS + 1];       /* each call that has a row */
static int rows, calls;

static void begin(const char *call, const char *what) {
    call_now = call;
    what_now = what;
}

static void begin_row(const char *call, const char *what) {
    int i = 0;
    begin(call, what);
    rows++;
    while (i < calls && strcmp(played[i], call) != 0) i++;
    if (i == calls && calls <= CALLS) played[calls++] = call;
}

static void not_seen(void) { printf("not seen: %s: %s\n", call_now, what_now); }

static void settle(brc_status came, brc_status wanted) {
    if (came == wanted) return;
    fprintf(stderr, "statuses: %s: %s: ", call_now, what_now);
    fprintf(stderr, "came %s, wanted %s\n", brc_status_name(came), brc_status_name(wanted));
    exit(1);
}

#define MUST(call) settle((call), BRC_OK)
#define CHECK(fact)                                                                                                        \
    do {                                                                                                                   \
        if (!(fact)) {                                                                                                     \
            fprintf(stderr, "statuses: %s: %s: line %d: not so: %s\n", call_now, what_now, __LINE__, #fact);               \
            exit(1);                                                                                                       \
        }                                                                                                                  \
    } while (0)

/* Whether these bytes are as they were before a call, which were all one byte. */
static int is_unwritten(const void *at, size_t len) {
    const uint8_t *bytes = at;
    for (size_t i = 0; i < len; i++)
        if (bytes[i] != UNWRITTEN) return 0;
    return 1;
}

/* ---- Memory, and calls that are stopped as they ask for it */

/* A call of another thread of the machine. It is stopped at the first allocation that is refused, until it may go on. */
typedef struct {
    brc_thread *thread;
    brc_kind kind;              /* of the object that it has locked; 0: it has the register of threads */
    brc_ref object;
    pthread_t machine;
    int is_inside, has_ended, may_go, is_joined;
    brc_status came;
} hold_t;

enum { NONE = 0, ALL = -1 };

/* A thread of a heap takes six blocks: one that `at` leads to, two for its numbers, and three while the register is locked. */
enum { ROOM = 1, NUMBERS = 3, THREAD = 6 };

static __thread long given = ALL;           /* how many allocations this thread of the machine is given yet */
static __thread hold_t *stops_in;           /* what it waits for once no more is given, if anything */
static long blocks;
static pthread_mutex_t counting = PTHREAD_MUTEX_INITIALIZER, gate = PTHREAD_MUTEX_INITIALIZER;
static pthread_cond_t moved = PTHREAD_COND_INITIALIZER;
static struct timespec deadline;            /* of all waits until a call is stopped */

void *__real_malloc(size_t size);
void *__real_realloc(void *block, size_t size);
void __real_free(void *block);
void *__wrap_malloc(size_t size);
void *__wrap_realloc(void *block, size_t size);
void __wrap_free(void *block);

static void stop(hold_t *h) {
    stops_in = NULL;
    pthread_mutex_lock(&gate);
    h->is_inside = 1;
    pthread_cond_broadcast(&moved);
    while (!h->may_go) pthread_cond_wait(&moved, &gate);
    pthread_mutex_unlock(&gate);
}

static int is_given(void) {
    if (given == ALL) return 1;
    if (given > 0) return given--, 1;
    if (stops_in != NULL) stop(stops_in);
    return 0;
}

static void count_blocks(long more) {
    pthread_mutex_lock(&counting);
    blocks += more;
    pthread_mutex_unlock(&counting);
}

void *__wrap_malloc(size_t size) {
    void *block = is_given() ? __real_malloc(size) : NULL;
    count_blocks(block != NULL);
    return block;
}

void *__wrap_realloc(void *block, size_t size) {
    if (!is_given()) return NULL;
    count_blocks(block == NULL);
    return __real_realloc(block, size);
}

void __wrap_free(void *block) {
    count_blocks(-(block != NULL));
    __real_free(block);
}

/* A call that locks the object, and asks for memory then; or the register. No call on a text or an integer asks for any. */
static brc_status locking_call(const hold_t *h) {
    brc_ref value;
    brc_key key;
    uint8_t to[8];
    void *at;
    switch (h->kind) {
    case BRC_LIST: return brc_list_get(h->thread, h->object, 0, &value);
    case BRC_DICT: return brc_dict_pair(h->thread, h->object, 0, &key, to, sizeof to, &value);
    case BRC_MAILBOX: return brc_recv(h->thread, h->object, &value);
    default: return brc_thread_fork(h->thread, &at);
    }
}

static void *holder(void *at) {
    hold_t *h = at;
    given = h->kind == 0 ? NUMBERS : NONE;
    stops_in = h;
    h->came = locking_call(h);
    pthread_mutex_lock(&gate);
    h->has_ended = 1;
    pthread_cond_broadcast(&moved);
    pthread_mutex_unlock(&gate);
    return NULL;
}

/* The call that was stopped goes on, and is refused: so it changes nothing. */
static void let_go(hold_t *h) {
    if (h->is_joined) return;
    pthread_mutex_lock(&gate);
    h->may_go = 1;
    pthread_cond_broadcast(&moved);
    pthread_mutex_unlock(&gate);
    CHECK(pthread_join(h->machine, NULL) == 0);
    h->is_joined = 1;
    if (h->is_inside) settle(h->came, BRC_OUT_OF_MEMORY);
}

/* Another thread of the machine makes the call, and is stopped in it. If it isn't stopped in time, nothing is locked. */
static void hold(hold_t *h, brc_thread *thread, brc_kind kind, brc_ref object) {
    int is_late = 0;
    memset(h, 0, sizeof *h);
    h->thread = thread;
    h->kind = kind;
    h->object = object;
    CHECK(pthread_create(&h->machine, NULL, holder, h) == 0);
    pthread_mutex_lock(&gate);
    while (!h->is_inside && !h->has_ended && !is_late) is_late = pthread_cond_timedwait(&moved, &gate, &deadline) != 0;
    pthread_mutex_unlock(&gate);
    if (is_late || h->has_ended) let_go(h);
}

/* ---- Calls by numbers */

typedef enum {
    RETAIN, RELEASE, SAME, IDENTITY, NOTHING, TRUTH, GLOBALS, NEW_INT, NEW_SMALL, NEW_TEXT, NEW_BYTES, NEW_LIST, NEW_DICT, NEW_DICT_FOR, NEW_LIST_FOR, NEW_MAILBOX,
    KIND_OF, LEN_OF, INT_OF, TRUTH_OF, TEXT_OF, BYTES_OF, TEXT_IS, TEXT_EQUAL, PUSH, POP, TAKE, GET, SET, SEND, RECV, PUT_INT, PUT_TEXT,
    FIND_INT, FIND_TEXT, DEL_INT, DEL_TEXT, PUT_BYTES, FIND_BYTES, DEL_BYTES, PAIR, HAS_INT, HAS_TEXT, PLACE_INT, PLACE_TEXT, LEDGER, RELEASE_ALL, CLAIM, POLL,
    WORK, COUNT, NEW_LIST_OF, PUSH_VALUE, POP_VALUE, TAKE_VALUE, GET_VALUE, SET_VALUE,
    PUT_VALUE, SEND_VALUE, RECV_VALUE, PUT_INT_VALUE, PUT_TEXT_VALUE, PUT_BYTES_VALUE, PUT_NEW_INT_VALUE, PUT_NEW_TEXT_VALUE,
    SWAP_IF, SWAP_IF_INT, SWAP_IF_TEXT, FIND_INT_VALUE, FIND_TEXT_VALUE, DEL_INT_VALUE,
    DEL_TEXT_VALUE, FIND_BYTES_VALUE, DEL_BYTES_VALUE, PAIR_VALUE
} call_t;

/* What a call is given, and where it writes. */
typedef struct {
    brc_ref one, other;
    uint32_t holds;             /* what a value holds: its bits are `other` */
    brc_value expected;         /* what is expected where it goes */
    int64_t key;
    uint32_t index;
    const uint8_t *bytes;
    size_t len;
} inputs_t;

typedef struct {
    brc_ref ref;
    int64_t value;
    uint64_t allocs, frees, identity;
    size_t len;
    uint32_t word, pairs;
    brc_value datum;
    brc_key key;
    uint8_t text[16];
} outs_t;

enum { NOT_SO = 99 };           /* a call without a status returned something else */

/* The value goes in and comes out in one variable: a refusal leaves it as it was. */
static brc_status swap_if(call_t call, brc_thread *t, const inputs_t *in, brc_value value, outs_t *out) {
    brc_value came = value;
    brc_status s;
    if (call == SWAP_IF) s = brc_list_swap_if(t, in->one, in->index, in->expected, &came, &out->word);
    else if (call == SWAP_IF_INT) s = brc_dict_swap_if_int(t, in->one, in->key, in->expected, &came, &out->word);
    else s = brc_dict_swap_if_text(t, in->one, in->bytes, in->len, in->expected, &came, &out->word);
    if (s == BRC_OK) out->datum = came;
    else CHECK(memcmp(&came, &value, sizeof came) == 0);
    return s;
}

static brc_status make_call(call_t call, brc_thread *t, const inputs_t *in, outs_t *out) {
    const brc_ref one = in->one, other = in->other;
    const brc_value value = {other, LABEL, in->holds};
    const brc_value three[] = {{one, LABEL, in->holds}, {7, LABEL, BRC_SCALAR}, value};
    switch (call) {
    case RETAIN: return brc_retain(t, one, &out->ref);
    case RELEASE: return brc_release(t, one);
    case SAME: return brc_same(t, one, other, &out->word);
    case IDENTITY: return brc_identity(t, one, &out->identity);
    case NOTHING: return brc_none(t, &out->ref);
    case TRUTH: return brc_truth(t, 1, &out->ref);
    case GLOBALS: return brc_globals(t, &out->ref);
    case NEW_INT: return brc_new_int(t, 1000, &out->ref);
    case NEW_SMALL: return brc_new_int(t, 256, &out->ref);
    case NEW_TEXT: return brc_new_text(t, in->bytes, in->len, &out->ref);
    case NEW_BYTES: return brc_new_bytes(t, in->bytes, in->len, &out->ref);
    case NEW_LIST: return brc_new_list(t, &out->ref);
    case NEW_LIST_OF: return brc_new_list_of(t, three, 3, &out->ref);
    case NEW_DICT: return brc_new_dict(t, &out->ref);
    case NEW_LIST_FOR: return brc_new_list_for(t, 100, &out->ref);
    case NEW_DICT_FOR: return brc_new_dict_for(t, 100, &out->ref);
    case NEW_MAILBOX: return brc_new_mailbox(t, &out->ref);
    case KIND_OF: return brc_kind_of(t, one, &out->word);
    case LEN_OF: return brc_len_of(t, one, &out->len);
    case INT_OF: return brc_int_of(t, one, &out->value);
    case TRUTH_OF: return brc_truth_of(t, one, &out->word);
    case TEXT_OF: return brc_text_of(t, one, out->text, sizeof out->text, &out->len);
    case BYTES_OF: return brc_bytes_of(t, one, out->text, sizeof out->text, &out->len);
    case TEXT_IS: return brc_text_is(t, one, in->bytes, in->len, &out->word);
    case TEXT_EQUAL: return brc_text_equal(t, one, other, &out->word);
    case PUSH: return brc_list_push(t, one, other);
    case POP: return brc_list_pop(t, one, &out->ref);
    case TAKE: return brc_list_take(t, one, in->index, &out->ref);
    case GET: return brc_list_get(t, one, in->index, &out->ref);
    case SET: return brc_list_set(t, one, in->index, other, &out->ref);
    case SEND: return brc_send(t, one, other);
    case RECV: return brc_recv(t, one, &out->ref);
    case PUT_INT: return brc_dict_put_int(t, one, in->key, other, &out->ref);
    case PUT_TEXT: return brc_dict_put_text(t, one, in->bytes, in->len, other, &out->ref);
    case FIND_INT: return brc_dict_find_int(t, one, in->key, &out->ref);
    case FIND_TEXT: return brc_dict_find_text(t, one, in->bytes, in->len, &out->ref);
    case DEL_INT: return brc_dict_del_int(t, one, in->key, &out->ref);
    case DEL_TEXT: return brc_dict_del_text(t, one, in->bytes, in->len, &out->ref);
    case PUT_BYTES: return brc_dict_put_bytes(t, one, in->bytes, in->len, other, &out->ref);
    case FIND_BYTES: return brc_dict_find_bytes(t, one, in->bytes, in->len, &out->ref);
    case DEL_BYTES: return brc_dict_del_bytes(t, one, in->bytes, in->len, &out->ref);
    case PAIR: return brc_dict_pair(t, one, in->index, &out->key, out->text, sizeof out->text, &out->ref);
    case HAS_INT: return brc_dict_has_int(t, one, in->key, &out->word);
    case HAS_TEXT: return brc_dict_has_text(t, one, in->bytes, in->len, &out->word);
    case PLACE_INT: return brc_dict_place_int(t, one, in->key, &out->word);
    case PLACE_TEXT: return brc_dict_place_text(t, one, in->bytes, in->len, &out->word);
    case LEDGER: return brc_ledger(t, &out->allocs, &out->frees);
    case RELEASE_ALL: return brc_release_all(t);
    case CLAIM: return brc_claim(t, 300, 1);
    case POLL: return brc_poll(t) == 0 ? BRC_OK : NOT_SO;
    case WORK: return brc_work(t, 7) == 7 ? BRC_OK : NOT_SO;
    case COUNT: return brc_count(t) == 0 ? BRC_OK : NOT_SO;
    case PUSH_VALUE: return brc_list_push_value(t, one, value);
    case POP_VALUE: return brc_list_pop_value(t, one, &out->datum);
    case TAKE_VALUE: return brc_list_take_value(t, one, in->index, &out->datum);
    case GET_VALUE: return brc_list_get_value(t, one, in->index, &out->datum);
    case SET_VALUE: return brc_list_set_value(t, one, in->index, value, &out->datum);
    case PUT_VALUE: return brc_list_put_value(t, one, in->index, value, &out->datum);
    case SEND_VALUE: return brc_send_value(t, one, value);
    case RECV_VALUE: return brc_recv_value(t, one, &out->datum);
    case PUT_INT_VALUE: return brc_dict_put_int_value(t, one, in->key, value, &out->datum);
    case PUT_TEXT_VALUE: return brc_dict_put_text_value(t, one, in->bytes, in->len, value, &out->datum);
    case PUT_BYTES_VALUE: return brc_dict_put_bytes_value(t, one, in->bytes, in->len, value, &out->datum);
    case FIND_BYTES_VALUE: return brc_dict_find_bytes_value(t, one, in->bytes, in->len, &out->datum);
    case DEL_BYTES_VALUE: return brc_dict_del_bytes_value(t, one, in->bytes, in->len, &out->datum);
    case PUT_NEW_INT_VALUE: return brc_dict_put_new_int_value(t, one, in->key, value, &out->datum);
    case PUT_NEW_TEXT_VALUE: return brc_dict_put_new_text_value(t, one, in->bytes, in->len, value, &out->datum);
    case SWAP_IF: case SWAP_IF_INT: case SWAP_IF_TEXT: return swap_if(call, t, in, value, out);
    case FIND_INT_VALUE: return brc_dict_find_int_value(t, one, in->key, &out->datum);
    case FIND_TEXT_VALUE: return brc_dict_find_text_value(t, one, in->bytes, in->len, &out->datum);
    case DEL_INT_VALUE: return brc_dict_del_int_value(t, one, in->key, &out->datum);
    case DEL_TEXT_VALUE: return brc_dict_del_text_value(t, one, in->bytes, in->len, &out->datum);
    case PAIR_VALUE:
        return brc_dict_pair_value(t, one, in->index, &out->key, out->text, sizeof out->text, &out->datum, &out->pairs);
    default: abort();
    }
}

/* ---- Their rows */

/* Who calls. READY has places to spare, FULL has 65,536 references, TIGHT has no place without memory for one, and LEFT has
 * left. TIGHT is also whose calls are stopped: each asks for memory. The heap has no free cell. READY, TIGHT and KEEPS have
 * put a value, and keep a reference to None. KEEPS has 65,535 others, and so no place. FULL and BARE keep none, and BARE has
 * no place without memory. */
typedef enum { READY, FULL, TIGHT, KEEPS, BARE, LEFT, WHO } who_t;

/* Objects that each of them has a reference to. Six have entries, and one more needs memory: LIST, DICT and MAILBOX have
 * references to an integer, and the three behind them have scalars. A full one has references to None. */
typedef enum {
    EMPTY_LIST, LIST, SCALAR_LIST, FULL_LIST, EMPTY_DICT, DICT, SCALAR_DICT, FULL_DICT, EMPTY_MAILBOX, MAILBOX,
    SCALAR_MAILBOX, FULL_MAILBOX, INT, TEXT, OBJECTS
} object_t;

/* Which number a call is given. ZERO to AWAY name no reference of the thread. VALUE names an integer, and TWICE is the first
 * number again. The others name an object that the call says. It is of the call's kind if it is EMPTY, SOME (it has entries)
 * or MOST (it is full). WRONG is of another kind, OTHER_EMPTY and OTHER_MOST are containers of another kind. */
typedef enum {
    ZERO, THEIRS, ELSEWHERE, SPENT, AWAY, VALUE, TWICE, WRONG, EMPTY, SOME, MOST, OTHER_EMPTY, OTHER_MOST
} number_t;

/* Which key, index or text. FIRST is there, and so is SECOND, whose index is 1: in a dictionary the first pair has a text for
 * its key, and the second a number. ABSENT is just past the end, FAR is the largest index, BAD isn't UTF-8. */
typedef enum { FIRST, SECOND, ABSENT, FAR, BAD } at_t;

typedef struct {
    const char *what;
    who_t who;
    number_t one, other;
    at_t at;
    long given;                 /* how many allocations the call is given */
    brc_status wanted;
    brc_status otherwise;       /* what comes instead of BUSY, or still the same, once the object isn't locked */
} row_t;

static const row_t THREAD_LEFT[] = {
    {"the thread has left", LEFT, ZERO, ZERO, FIRST, NONE, BRC_GONE, 0},
    {0}};
static const row_t RETURNS[] = {
    {"the thread has left", LEFT, ZERO, ZERO, FIRST, NONE, BRC_OK, 0},
    {0}};
static const row_t QUIET[] = {
    {"nothing is to be done", READY, ZERO, ZERO, FIRST, NONE, BRC_OK, 0},
    {0}};

/* Of one number. */
static const row_t NUMBER[] = {
    {"the thread has left, and the number is 0", LEFT, ZERO, VALUE, FAR, NONE, BRC_GONE, 0},
    {"the thread has left, and had the number", LEFT, WRONG, VALUE, FAR, NONE, BRC_GONE, 0},
    {"the number is 0", FULL, ZERO, VALUE, FAR, NONE, BRC_FOREIGN, 0},
    {"the number is another thread's", FULL, THEIRS, VALUE, FAR, NONE, BRC_FOREIGN, 0},
    {"the number is another heap's", FULL, ELSEWHERE, VALUE, FAR, NONE, BRC_FOREIGN, 0},
    {"the reference was released", FULL, SPENT, VALUE, FAR, NONE, BRC_STALE, 0},
    {"the reference was given away", FULL, AWAY, VALUE, FAR, NONE, BRC_STALE, 0},
    {0}};

/* Of two numbers. */
static const row_t NUMBERS_OF_TWO[] = {
    {"the thread has left, and the numbers are 0", LEFT, ZERO, TWICE, FAR, NONE, BRC_GONE, 0},
    {"the thread has left, and had the numbers", LEFT, WRONG, VALUE, FAR, NONE, BRC_GONE, 0},
    {"the first is 0, the second was released", FULL, ZERO, SPENT, FAR, NONE, BRC_FOREIGN, 0},
    {"both are 0", FULL, ZERO, TWICE, FAR, NONE, BRC_FOREIGN, 0},
    {"the first is another thread's, the second was released", FULL, THEIRS, SPENT, FAR, NONE, BRC_FOREIGN, 0},
    {"the first is another heap's, the second was given away", FULL, ELSEWHERE, AWAY, FAR, NONE, BRC_FOREIGN, 0},
    {"the first was released, the second is 0", FULL, SPENT, ZERO, FAR, NONE, BRC_STALE, 0},
    {"both are one that was released", FULL, SPENT, TWICE, FAR, NONE, BRC_STALE, 0},
    {"the first was given away, the second is another thread's", FULL, AWAY, THEIRS, FAR, NONE, BRC_STALE, 0},
    {"the second is 0", FULL, WRONG, ZERO, FAR, NONE, BRC_FOREIGN, 0},
    {"the second is another thread's", FULL, WRONG, THEIRS, FAR, NONE, BRC_FOREIGN, 0},
    {"the second is another heap's", FULL, WRONG, ELSEWHERE, FAR, NONE, BRC_FOREIGN, 0},
    {"the second was released", FULL, WRONG, SPENT, FAR, NONE, BRC_STALE, 0},
    {"the second was given away", FULL, WRONG, AWAY, FAR, NONE, BRC_STALE, 0},
    {0}};
static const row_t ONE_TWICE[] = {
    {"one number twice, of another kind", FULL, WRONG, TWICE, FAR, NONE, BRC_SAME, 0},
    {"one number twice", FULL, SOME, TWICE, FAR, NONE, BRC_SAME, 0},
    {"one number twice, of a full container", FULL, MOST, TWICE, ABSENT, NONE, BRC_SAME, 0},
    {0}};

/* Of a key that is a text. */
static const row_t KEY[] = {
    {"the thread has left, and the key isn't UTF-8", LEFT, ZERO, TWICE, BAD, NONE, BRC_GONE, 0},
    {"the key isn't UTF-8, and the number is 0", FULL, ZERO, TWICE, BAD, NONE, BRC_NOT_TEXT, 0},
    {"the key isn't UTF-8, and the reference was released", FULL, SPENT, SPENT, BAD, NONE, BRC_NOT_TEXT, 0},
    {"the key isn't UTF-8, and one number stands twice", FULL, WRONG, TWICE, BAD, NONE, BRC_NOT_TEXT, 0},
    {"the key isn't UTF-8, and the dictionary is locked", FULL, SOME, VALUE, BAD, NONE, BRC_NOT_TEXT, 0},
    {0}};

/* Of the object. */
static const row_t LOCKED[] = {
    {"another thread has the object", FULL, WRONG, VALUE, FAR, NONE, BRC_BUSY, BRC_OK},
    {0}};
static const row_t OTHER_KIND[] = {
    {"another thread has the object, of another kind", FULL, WRONG, VALUE, FAR, NONE, BRC_BUSY, BRC_WRONG_KIND},
    {"the object is of another kind", FULL, WRONG, VALUE, FAR, NONE, BRC_WRONG_KIND, 0},
    {0}};
static const row_t OTHER_CONTAINER[] = {
    {"another thread has the object, full, of another kind", FULL, OTHER_MOST, VALUE, ABSENT, NONE, BRC_BUSY, BRC_WRONG_KIND},
    {"the object is full, and of another kind", FULL, OTHER_MOST, VALUE, ABSENT, NONE, BRC_WRONG_KIND, 0},
    {"the object is empty, and of another kind", FULL, OTHER_EMPTY, VALUE, FAR, NONE, BRC_WRONG_KIND, 0},
    {0}};
static const row_t NOT_TRUTH[] = {
    {"the object is of another kind", FULL, WRONG, VALUE, FAR, NONE, BRC_WRONG_KIND, 0},
    {0}};
static const row_t READS[] = {
    {"a text, and no memory", FULL, SOME, VALUE, FIRST, NONE, BRC_OK, 0},
    {"a text, bytes that aren't UTF-8, and no memory", FULL, SOME, VALUE, BAD, NONE, BRC_OK, 0},
    {0}};
static const row_t TWO_TEXTS[] = {
    {"a text, and the second is of another kind", FULL, SOME, VALUE, FAR, NONE, BRC_WRONG_KIND, 0},
    {"one text twice, and no memory", FULL, SOME, TWICE, FAR, NONE, BRC_OK, 0},
    {"one number twice, of another kind", FULL, WRONG, TWICE, FAR, NONE, BRC_OK, 0},
    {0}};
static const row_t LENGTHS[] = {
    {"another thread has the list", FULL, SOME, VALUE, FIRST, NONE, BRC_BUSY, BRC_OK},
    {"the object is of another kind", FULL, WRONG, VALUE, FAR, NONE, BRC_WRONG_KIND, 0},
    {0}};
static const row_t PUTS[] = {
    {"another thread has the container, which is full", FULL, MOST, VALUE, ABSENT, NONE, BRC_BUSY, BRC_FULL},
    {"the container is full", FULL, MOST, VALUE, ABSENT, NONE, BRC_FULL, 0},
    {"no memory for the first entry", FULL, EMPTY, VALUE, ABSENT, NONE, BRC_OUT_OF_MEMORY, 0},
    {"no memory for one more entry", FULL, SOME, VALUE, ABSENT, NONE, BRC_OUT_OF_MEMORY, 0},
    {0}};
static const row_t COPIES[] = {
    {"memory for the key, and none for one more pair", FULL, SOME, VALUE, ABSENT, 1, BRC_OUT_OF_MEMORY, 0},
    {0}};
static const row_t SETS[] = {
    {"another thread has the list", FULL, SOME, VALUE, FAR, NONE, BRC_BUSY, BRC_NO_SUCH_PLACE},
    {"the list is empty", FULL, EMPTY, VALUE, FIRST, NONE, BRC_NO_SUCH_PLACE, 0},
    {"the index is just past the end", FULL, SOME, VALUE, ABSENT, NONE, BRC_NO_SUCH_PLACE, 0},
    {"the index is far past the end", FULL, SOME, VALUE, FAR, NONE, BRC_NO_SUCH_PLACE, 0},
    {0}};
static const row_t GIVES[] = {
    {"another thread has the container", FULL, SOME, VALUE, FIRST, NONE, BRC_BUSY, BRC_FRAME_FULL},
    {"the container is empty", FULL, EMPTY, VALUE, FIRST, NONE, BRC_NO_SUCH_PLACE, 0},
    {"the container is empty, and no memory for a place", TIGHT, EMPTY, VALUE, FIRST, NONE, BRC_NO_SUCH_PLACE, 0},
    {"the thread has 65,536 references", FULL, SOME, VALUE, FIRST, NONE, BRC_FRAME_FULL, 0},
    {"the thread has 65,535 references, and keeps one to None", KEEPS, SOME, VALUE, FIRST, NONE, BRC_FRAME_FULL, 0},
    {"no memory for a place", TIGHT, SOME, VALUE, FIRST, NONE, BRC_OUT_OF_MEMORY, 0},
    {0}};
static const row_t INDEXES[] = {
    {"another thread has it, and the index is past the end", FULL, SOME, VALUE, FAR, NONE, BRC_BUSY, BRC_NO_SUCH_PLACE},
    {"the index is just past the end", FULL, SOME, VALUE, ABSENT, NONE, BRC_NO_SUCH_PLACE, 0},
    {"the index is far past the end", FULL, SOME, VALUE, FAR, NONE, BRC_NO_SUCH_PLACE, 0},
    {0}};
static const row_t FINDS[] = {
    {"another thread has the dictionary", FULL, SOME, VALUE, ABSENT, NONE, BRC_BUSY, BRC_NO_SUCH_KEY},
    {"the dictionary is empty", FULL, EMPTY, VALUE, FIRST, NONE, BRC_NO_SUCH_KEY, 0},
    {"the key isn't there", FULL, SOME, VALUE, ABSENT, NONE, BRC_NO_SUCH_KEY, 0},
    {"the key isn't there, and no memory for a place", TIGHT, SOME, VALUE, ABSENT, NONE, BRC_NO_SUCH_KEY, 0},
    {"the thread has 65,536 references", FULL, SOME, VALUE, FIRST, NONE, BRC_FRAME_FULL, 0},
    {"the thread has 65,535 references, and keeps one to None", KEEPS, SOME, VALUE, FIRST, NONE, BRC_FRAME_FULL, 0},
    {"no memory for a place", TIGHT, SOME, VALUE, FIRST, NONE, BRC_OUT_OF_MEMORY, 0},
    {0}};
static const row_t KEY_COPY[] = {
    {"a place, and no memory for the key", READY, SOME, VALUE, FIRST, NONE, BRC_OUT_OF_MEMORY, 0},
    {0}};

/* Of the frame and the heap. */
static const row_t PLACE[] = {
    {"the thread has 65,536 references", FULL, SOME, VALUE, FIRST, NONE, BRC_FRAME_FULL, 0},
    {"the thread has 65,535 references, and keeps one to None", KEEPS, SOME, VALUE, FIRST, NONE, BRC_FRAME_FULL, 0},
    {"no memory for a place", TIGHT, SOME, VALUE, FIRST, NONE, BRC_OUT_OF_MEMORY, 0},
    {0}};
static const row_t CELL[] = {
    {"a place, and no memory for the object", READY, SOME, VALUE, FIRST, NONE, BRC_OUT_OF_MEMORY, 0},
    {"the heap is full", READY, SOME, VALUE, FIRST, ALL, BRC_HEAP_FULL, 0},
    {0}};
static const row_t TEXT_BYTES[] = {
    {"the thread has left, and the bytes aren't UTF-8", LEFT, ZERO, ZERO, BAD, NONE, BRC_GONE, 0},
    {"the bytes aren't UTF-8", FULL, ZERO, ZERO, BAD, NONE, BRC_NOT_TEXT, 0},
    {"no memory for the copy", FULL, SOME, VALUE, FIRST, NONE, BRC_OUT_OF_MEMORY, 0},
    {"a copy, and the thread has 65,536 references", FULL, SOME, VALUE, FIRST, 1, BRC_FRAME_FULL, 0},
    {"a copy, and no memory for a place", TIGHT, SOME, VALUE, FIRST, 1, BRC_OUT_OF_MEMORY, 0},
    {"a copy and a place, and no memory for the object", READY, SOME, VALUE, FIRST, 1, BRC_OUT_OF_MEMORY, 0},
    {"the heap is full", READY, SOME, VALUE, FIRST, ALL, BRC_HEAP_FULL, 0},
    {0}};

/* Of bytes that needn't be UTF-8. */
static const row_t ANY_BYTES[] = {
    {"the thread has left, and the bytes aren't UTF-8", LEFT, ZERO, ZERO, BAD, NONE, BRC_GONE, 0},
    {"bytes that aren't UTF-8, and no memory for the copy", FULL, SOME, VALUE, BAD, NONE, BRC_OUT_OF_MEMORY, 0},
    {"a copy of bytes that aren't UTF-8, and the thread has 65,536 references", FULL, SOME, VALUE, BAD, 1, BRC_FRAME_FULL, 0},
    {"a copy, and no memory for a place", TIGHT, SOME, VALUE, FIRST, 1, BRC_OUT_OF_MEMORY, 0},
    {"a copy and a place, and no memory for the object", READY, SOME, VALUE, FIRST, 1, BRC_OUT_OF_MEMORY, 0},
    {"the heap is full, and the bytes aren't UTF-8", READY, SOME, VALUE, BAD, ALL, BRC_HEAP_FULL, 0},
    {0}};
static const row_t BAD_KEY[] = {
    {"the key isn't UTF-8, and the number is 0", FULL, ZERO, TWICE, BAD, NONE, BRC_FOREIGN, 0},
    {"the key isn't UTF-8, and the reference was released", FULL, SPENT, SPENT, BAD, NONE, BRC_STALE, 0},
    {"another thread has the dictionary, and the key isn't UTF-8", FULL, WRONG, VALUE, BAD, NONE, BRC_BUSY, BRC_WRONG_KIND},
    {0}};
static const row_t BAD_ABSENT[] = {
    {"no such key, which isn't UTF-8", FULL, SOME, VALUE, BAD, NONE, BRC_NO_SUCH_KEY, 0},
    {0}};

/* Of a value that holds none of the three. Its numbers would be refused, too. */
static const row_t NOT_VALUES[] = {
    {"the thread has left, and the value is none of the three", LEFT, ZERO, TWICE, FAR, NONE, BRC_GONE, 0},
    {"none of the three, and the numbers are 0", FULL, ZERO, TWICE, FAR, NONE, BRC_NOT_VALUE, 0},
    {"none of the three; the first is another thread's", FULL, THEIRS, SPENT, FAR, NONE, BRC_NOT_VALUE, 0},
    {"none of the three; the first was released", FULL, SPENT, ELSEWHERE, FAR, NONE, BRC_NOT_VALUE, 0},
    {"none of the three, and one number twice", FULL, SOME, TWICE, FAR, NONE, BRC_NOT_VALUE, 0},
    {"none of the three, and the object is of another kind", FULL, OTHER_MOST, VALUE, FAR, NONE, BRC_NOT_VALUE, 0},
    {"none of the three, and the container is full", FULL, MOST, VALUE, ABSENT, NONE, BRC_NOT_VALUE, 0},
    {0}};
static const row_t LARGEST[] = {
    {"the largest of what is none of the three", FULL, ZERO, TWICE, FAR, NONE, BRC_NOT_VALUE, 0},
    {0}};

/* The thread's first put of a value makes a reference to None, before it looks at the object. */
static const row_t MAKES_NONE[] = {
    {"no place for None, and of another kind", FULL, OTHER_MOST, VALUE, ABSENT, NONE, BRC_FRAME_FULL, BRC_FRAME_FULL},
    {"no place for None, and the container is full", FULL, MOST, VALUE, ABSENT, NONE, BRC_FRAME_FULL, BRC_FRAME_FULL},
    {"no place for None, and there is the entry", FULL, SOME, VALUE, FIRST, NONE, BRC_FRAME_FULL, BRC_FRAME_FULL},
    {"no memory for None, and of another kind", BARE, OTHER_MOST, VALUE, ABSENT, NONE, BRC_OUT_OF_MEMORY,
     BRC_OUT_OF_MEMORY},
    {"no memory for None, and the container is full", BARE, MOST, VALUE, ABSENT, NONE, BRC_OUT_OF_MEMORY, BRC_OUT_OF_MEMORY},
    {"no memory for None, and there is the entry", BARE, SOME, VALUE, FIRST, NONE, BRC_OUT_OF_MEMORY, BRC_OUT_OF_MEMORY},
    {0}};

/* A list that is made with a value, a scalar, and another value. */
static const row_t MAKES_A_LIST[] = {
    {"no place for None", FULL, ZERO, ZERO, FIRST, NONE, BRC_FRAME_FULL, 0},
    {"no memory for None", BARE, ZERO, ZERO, FIRST, NONE, BRC_OUT_OF_MEMORY, 0},
    {"None is kept, and no place for the list", KEEPS, ZERO, ZERO, FIRST, NONE, BRC_FRAME_FULL, 0},
    {"no memory for the values", TIGHT, ZERO, ZERO, FIRST, NONE, BRC_OUT_OF_MEMORY, 0},
    {"memory for the values, and none for a place", TIGHT, ZERO, ZERO, FIRST, 1, BRC_OUT_OF_MEMORY, 0},
    {"memory for the values and a place, and none for the list", READY, ZERO, ZERO, FIRST, 1, BRC_OUT_OF_MEMORY, 0},
    {"the heap is full", READY, ZERO, ZERO, FIRST, ALL, BRC_HEAP_FULL, 0},
    {0}};
static const row_t MAKES_OF_REFERENCES[] = {
    {"references, and no place for None", FULL, WRONG, VALUE, FIRST, NONE, BRC_FRAME_FULL, 0},
    {"references, and no place for the list", KEEPS, WRONG, VALUE, FIRST, NONE, BRC_FRAME_FULL, 0},
    {"references, and the heap is full", READY, WRONG, VALUE, FIRST, ALL, BRC_HEAP_FULL, 0},
    {0}};

/* A scalar is no number, whatever its bits are. */
static const row_t ANY_BITS[] = {
    {"another thread has the object, and the scalar is its number", FULL, WRONG, TWICE, FAR, NONE, BRC_BUSY, BRC_WRONG_KIND},
    {"another thread has the object, and the scalar is 0", FULL, WRONG, ZERO, FAR, NONE, BRC_BUSY, BRC_WRONG_KIND},
    {"of another kind, and the scalar is its number", FULL, WRONG, TWICE, FAR, NONE, BRC_WRONG_KIND, 0},
    {"of another kind, and the scalar is 0", FULL, WRONG, ZERO, FAR, NONE, BRC_WRONG_KIND, 0},
    {"of another kind, and the scalar is another thread's number", FULL, WRONG, THEIRS, FAR, NONE, BRC_WRONG_KIND, 0},
    {"of another kind, and the scalar is another heap's number", FULL, WRONG, ELSEWHERE, FAR, NONE, BRC_WRONG_KIND, 0},
    {"of another kind, and the scalar is a number that was released", FULL, WRONG, SPENT, FAR, NONE, BRC_WRONG_KIND, 0},
    {"of another kind, and the scalar is a number that was given away", FULL, WRONG, AWAY, FAR, NONE, BRC_WRONG_KIND, 0},
    {0}};

/* A scalar for a reference, which wants a place; and for a scalar, which wants none. */
static const row_t FOR_REFERENCE[] = {
    {"another thread has the container, where a reference stands", FULL, SOME, VALUE, FIRST, NONE, BRC_BUSY, BRC_FRAME_FULL},
    {"no place for the reference that comes out", FULL, SOME, VALUE, FIRST, NONE, BRC_FRAME_FULL, 0},
    {"no memory for the place of what comes out", TIGHT, SOME, VALUE, FIRST, NONE, BRC_OUT_OF_MEMORY, 0},
    {0}};
static const row_t FOR_SCALAR[] = {
    {"another thread has the container, where a scalar stands", FULL, SOME, ELSEWHERE, FIRST, NONE, BRC_BUSY, BRC_OK},
    {"no place, and a scalar comes out", FULL, SOME, ELSEWHERE, FIRST, NONE, BRC_OK, 0},
    {"no memory for a place, and a scalar comes out", TIGHT, SOME, ELSEWHERE, FIRST, NONE, BRC_OK, 0},
    {0}};
static const row_t PUTS_AT[] = {
    {"another thread has the list, which is full", FULL, MOST, VALUE, FAR, NONE, BRC_BUSY, BRC_NO_SUCH_PLACE},
    {"the list is empty, and the index is 1", FULL, EMPTY, VALUE, SECOND, NONE, BRC_NO_SUCH_PLACE, 0},
    {"the index is far past the end", FULL, SOME, VALUE, FAR, NONE, BRC_NO_SUCH_PLACE, 0},
    {"the list is full, and the index is far past the end", FULL, MOST, VALUE, FAR, NONE, BRC_NO_SUCH_PLACE, 0},
    {0}};

/* Of a scalar that comes out, and of one that is looked at. */
static const row_t GIVES_SCALAR[] = {
    {"another thread has the container, where a scalar stands", FULL, SOME, VALUE, FIRST, NONE, BRC_BUSY, BRC_FRAME_FULL},
    {"a scalar, and the thread has 65,536 references", FULL, SOME, VALUE, FIRST, NONE, BRC_FRAME_FULL, 0},
    {"a scalar, and 65,535 references and one to None", KEEPS, SOME, VALUE, FIRST, NONE, BRC_FRAME_FULL, 0},
    {0}};
static const row_t LOOKS[] = {
    {"another thread has the container, where a scalar stands", FULL, SOME, VALUE, SECOND, NONE, BRC_BUSY, BRC_OK},
    {"a scalar, and the thread has 65,536 references", FULL, SOME, VALUE, SECOND, NONE, BRC_OK, 0},
    {"a scalar, and no memory for a place", BARE, SOME, VALUE, SECOND, NONE, BRC_OK, 0},
    {0}};
static const row_t LOOKS_AT_KEY[] = {
    {"a scalar, 65,536 references, and no memory for the key", FULL, SOME, VALUE, FIRST, NONE, BRC_OUT_OF_MEMORY, 0},
    {"a scalar, and no memory for the key", READY, SOME, VALUE, FIRST, NONE, BRC_OUT_OF_MEMORY, 0},
    {0}};
static const row_t COPIED_KEY[] = {
    {"memory for the key, and the thread has 65,536 references", FULL, SOME, VALUE, FIRST, 1, BRC_FRAME_FULL, 0},
    {"memory for the key, and none for a place", TIGHT, SOME, VALUE, FIRST, 1, BRC_OUT_OF_MEMORY, 0},
    {0}};

/* Whether and where a key is there: no reference is made, so nothing is wanting. */
static const row_t HAS[] = {
    {"another thread has the dictionary, and the key isn't there", FULL, SOME, VALUE, ABSENT, NONE, BRC_BUSY, BRC_OK},
    {"another thread has the dictionary, and the key is there", FULL, SOME, VALUE, FIRST, NONE, BRC_BUSY, BRC_OK},
    {"the dictionary is empty", FULL, EMPTY, VALUE, FIRST, NONE, BRC_OK, 0},
    {"the key isn't there", FULL, SOME, VALUE, ABSENT, NONE, BRC_OK, 0},
    {"the key is there, and the thread has 65,536 references", FULL, SOME, VALUE, FIRST, NONE, BRC_OK, 0},
    {"the key is there, and there is no memory for a place", BARE, SOME, VALUE, FIRST, NONE, BRC_OK, 0},
    {0}};
static const row_t PLACES[] = {
    {"another thread has the dictionary, and the key isn't there", FULL, SOME, VALUE, ABSENT, NONE, BRC_BUSY,
     BRC_NO_SUCH_KEY},
    {"another thread has the dictionary, and the key is there", FULL, SOME, VALUE, FIRST, NONE, BRC_BUSY, BRC_OK},
    {"the dictionary is empty", FULL, EMPTY, VALUE, FIRST, NONE, BRC_NO_SUCH_KEY, 0},
    {"the key isn't there", FULL, SOME, VALUE, ABSENT, NONE, BRC_NO_SUCH_KEY, 0},
    {"the key is there, and the thread has 65,536 references", FULL, SOME, VALUE, FIRST, NONE, BRC_OK, 0},
    {"the key is there, and there is no memory for a place", BARE, SOME, VALUE, FIRST, NONE, BRC_OK, 0},
    {0}};

/* A call, its objects from WRONG to OTHER_MOST, and its rows in the order of brc.h. */
typedef struct {
    call_t call;
    const char *name;
    object_t of[6];
    const row_t *parts[8];      /* NULL behind the last */
} about_t;

#define ANY {LIST, LIST, LIST, LIST, LIST, LIST}
#define TEXTS {LIST, TEXT, TEXT, TEXT, LIST, LIST}
#define LISTS {DICT, EMPTY_LIST, LIST, FULL_LIST, EMPTY_MAILBOX, FULL_MAILBOX}
#define LENGTH_OF {TEXT, EMPTY_LIST, LIST, FULL_LIST, EMPTY_MAILBOX, FULL_MAILBOX}
#define DICTS {LIST, EMPTY_DICT, DICT, FULL_DICT, EMPTY_LIST, FULL_LIST}
#define MAILBOXES {LIST, EMPTY_MAILBOX, MAILBOX, FULL_MAILBOX, EMPTY_DICT, FULL_DICT}
#define SCALAR_LISTS {DICT, EMPTY_LIST, SCALAR_LIST, FULL_LIST, EMPTY_MAILBOX, FULL_MAILBOX}
#define SCALAR_DICTS {LIST, EMPTY_DICT, SCALAR_DICT, FULL_DICT, EMPTY_LIST, FULL_LIST}
#define SCALAR_MAILBOXES {LIST, EMPTY_MAILBOX, SCALAR_MAILBOX, FULL_MAILBOX, EMPTY_DICT, FULL_DICT}

static const about_t ABOUT[] = {
    {LEDGER, "brc_ledger", ANY, {THREAD_LEFT}},
    {POLL, "brc_poll", ANY, {RETURNS, QUIET}},
    {WORK, "brc_work", ANY, {RETURNS, QUIET}},
    {COUNT, "brc_count", ANY, {RETURNS}},
    {RELEASE_ALL, "brc_release_all", ANY, {THREAD_LEFT}},
    {CLAIM, "brc_claim", ANY, {THREAD_LEFT}},
    {RETAIN, "brc_retain", ANY, {NUMBER, PLACE}},
    {RELEASE, "brc_release", ANY, {NUMBER}},
    {SAME, "brc_same", ANY, {NUMBERS_OF_TWO}},
    {IDENTITY, "brc_identity", ANY, {NUMBER}},
    {NOTHING, "brc_none", ANY, {THREAD_LEFT, PLACE}},
    {TRUTH, "brc_truth", ANY, {THREAD_LEFT, PLACE}},
    {GLOBALS, "brc_globals", ANY, {THREAD_LEFT, PLACE}},
    {NEW_SMALL, "brc_new_int", ANY, {THREAD_LEFT, PLACE}},
    {NEW_INT, "brc_new_int", ANY, {THREAD_LEFT, PLACE, CELL}},
    {NEW_TEXT, "brc_new_text", ANY, {TEXT_BYTES}},
    {NEW_BYTES, "brc_new_bytes", ANY, {ANY_BYTES}},
    {NEW_LIST, "brc_new_list", ANY, {THREAD_LEFT, PLACE, CELL}},
    {NEW_DICT, "brc_new_dict", ANY, {THREAD_LEFT, PLACE, CELL}},
    {NEW_LIST_FOR, "brc_new_list_for", ANY, {THREAD_LEFT, PLACE, CELL}},
    {NEW_DICT_FOR, "brc_new_dict_for", ANY, {THREAD_LEFT, PLACE, CELL}},
    {NEW_MAILBOX, "brc_new_mailbox", ANY, {THREAD_LEFT, PLACE, CELL}},
    {KIND_OF, "brc_kind_of", ANY, {NUMBER, LOCKED}},
    {LEN_OF, "brc_len_of", LENGTH_OF, {NUMBER, LENGTHS}},
    {INT_OF, "brc_int_of", ANY, {NUMBER, OTHER_KIND}},
    {TRUTH_OF, "brc_truth_of", ANY, {NUMBER, NOT_TRUTH}},
    {TEXT_OF, "brc_text_of", TEXTS, {NUMBER, OTHER_KIND, READS}},
    {BYTES_OF, "brc_bytes_of", TEXTS, {NUMBER, OTHER_KIND, READS}},
    {TEXT_IS, "brc_text_is", TEXTS, {NUMBER, OTHER_KIND, READS}},
    {TEXT_EQUAL, "brc_text_equal", TEXTS, {NUMBERS_OF_TWO, OTHER_KIND, TWO_TEXTS}},
    {PUSH, "brc_list_push", LISTS, {NUMBERS_OF_TWO, ONE_TWICE, OTHER_KIND, OTHER_CONTAINER, PUTS}},
    {POP, "brc_list_pop", LISTS, {NUMBER, OTHER_KIND, OTHER_CONTAINER, GIVES}},
    {TAKE, "brc_list_take", LISTS, {NUMBER, OTHER_KIND, OTHER_CONTAINER, INDEXES, GIVES}},
    {GET, "brc_list_get", LISTS, {NUMBER, OTHER_KIND, OTHER_CONTAINER, INDEXES, GIVES}},
    {SET, "brc_list_set", LISTS, {NUMBERS_OF_TWO, ONE_TWICE, OTHER_KIND, OTHER_CONTAINER, SETS}},
    {SEND, "brc_send", MAILBOXES, {NUMBERS_OF_TWO, ONE_TWICE, OTHER_KIND, OTHER_CONTAINER, PUTS}},
    {RECV, "brc_recv", MAILBOXES, {NUMBER, OTHER_KIND, OTHER_CONTAINER, GIVES}},
    {PUT_INT, "brc_dict_put_int", DICTS, {NUMBERS_OF_TWO, ONE_TWICE, OTHER_KIND, OTHER_CONTAINER, PUTS}},
    {PUT_TEXT, "brc_dict_put_text", DICTS, {KEY, NUMBERS_OF_TWO, ONE_TWICE, OTHER_KIND, OTHER_CONTAINER, PUTS, COPIES}},
    {FIND_INT, "brc_dict_find_int", DICTS, {NUMBER, OTHER_KIND, OTHER_CONTAINER, FINDS}},
    {FIND_TEXT, "brc_dict_find_text", DICTS, {KEY, NUMBER, OTHER_KIND, OTHER_CONTAINER, FINDS}},
    {DEL_INT, "brc_dict_del_int", DICTS, {NUMBER, OTHER_KIND, OTHER_CONTAINER, FINDS}},
    {DEL_TEXT, "brc_dict_del_text", DICTS, {KEY, NUMBER, OTHER_KIND, OTHER_CONTAINER, FINDS}},
    {PUT_BYTES, "brc_dict_put_bytes", DICTS, {BAD_KEY, NUMBERS_OF_TWO, ONE_TWICE, OTHER_KIND, OTHER_CONTAINER, PUTS, COPIES}},
    {FIND_BYTES, "brc_dict_find_bytes", DICTS, {BAD_KEY, NUMBER, OTHER_KIND, OTHER_CONTAINER, FINDS, BAD_ABSENT}},
    {DEL_BYTES, "brc_dict_del_bytes", DICTS, {BAD_KEY, NUMBER, OTHER_KIND, OTHER_CONTAINER, FINDS, BAD_ABSENT}},
    {PAIR, "brc_dict_pair", DICTS, {NUMBER, OTHER_KIND, OTHER_CONTAINER, INDEXES, GIVES, KEY_COPY}},
    {HAS_INT, "brc_dict_has_int", DICTS, {NUMBER, OTHER_KIND, OTHER_CONTAINER, HAS}},
    {HAS_TEXT, "brc_dict_has_text", DICTS, {KEY, NUMBER, OTHER_KIND, OTHER_CONTAINER, HAS}},
    {PLACE_INT, "brc_dict_place_int", DICTS, {NUMBER, OTHER_KIND, OTHER_CONTAINER, PLACES}},
    {PLACE_TEXT, "brc_dict_place_text", DICTS, {KEY, NUMBER, OTHER_KIND, OTHER_CONTAINER, PLACES}},
    {POP_VALUE, "brc_list_pop_value", LISTS, {NUMBER, OTHER_KIND, OTHER_CONTAINER, GIVES}},
    {POP_VALUE, "brc_list_pop_value", SCALAR_LISTS, {GIVES_SCALAR}},
    {TAKE_VALUE, "brc_list_take_value", LISTS, {NUMBER, OTHER_KIND, OTHER_CONTAINER, INDEXES, GIVES}},
    {TAKE_VALUE, "brc_list_take_value", SCALAR_LISTS, {GIVES_SCALAR}},
    {GET_VALUE, "brc_list_get_value", LISTS, {NUMBER, OTHER_KIND, OTHER_CONTAINER, INDEXES, GIVES}},
    {GET_VALUE, "brc_list_get_value", SCALAR_LISTS, {LOOKS}},
    {RECV_VALUE, "brc_recv_value", MAILBOXES, {NUMBER, OTHER_KIND, OTHER_CONTAINER, GIVES}},
    {RECV_VALUE, "brc_recv_value", SCALAR_MAILBOXES, {GIVES_SCALAR}},
    {FIND_INT_VALUE, "brc_dict_find_int_value", DICTS, {NUMBER, OTHER_KIND, OTHER_CONTAINER, FINDS}},
    {FIND_INT_VALUE, "brc_dict_find_int_value", SCALAR_DICTS, {LOOKS}},
    {FIND_TEXT_VALUE, "brc_dict_find_text_value", DICTS, {KEY, NUMBER, OTHER_KIND, OTHER_CONTAINER, FINDS}},
    {FIND_TEXT_VALUE, "brc_dict_find_text_value", SCALAR_DICTS, {LOOKS}},
    {DEL_INT_VALUE, "brc_dict_del_int_value", DICTS, {NUMBER, OTHER_KIND, OTHER_CONTAINER, FINDS}},
    {DEL_INT_VALUE, "brc_dict_del_int_value", SCALAR_DICTS, {GIVES_SCALAR}},
    {DEL_TEXT_VALUE, "brc_dict_del_text_value", DICTS, {KEY, NUMBER, OTHER_KIND, OTHER_CONTAINER, FINDS}},
    {DEL_TEXT_VALUE, "brc_dict_del_text_value", SCALAR_DICTS, {GIVES_SCALAR}},
    {FIND_BYTES_VALUE, "brc_dict_find_bytes_value", DICTS, {BAD_KEY, NUMBER, OTHER_KIND, OTHER_CONTAINER, FINDS, BAD_ABSENT}},
    {FIND_BYTES_VALUE, "brc_dict_find_bytes_value", SCALAR_DICTS, {LOOKS}},
    {DEL_BYTES_VALUE, "brc_dict_del_bytes_value", DICTS, {BAD_KEY, NUMBER, OTHER_KIND, OTHER_CONTAINER, FINDS, BAD_ABSENT}},
    {DEL_BYTES_VALUE, "brc_dict_del_bytes_value", SCALAR_DICTS, {GIVES_SCALAR}},
    {PAIR_VALUE, "brc_dict_pair_value", DICTS, {NUMBER, OTHER_KIND, OTHER_CONTAINER, INDEXES, GIVES, KEY_COPY, COPIED_KEY}},
    {PAIR_VALUE, "brc_dict_pair_value", SCALAR_DICTS, {LOOKS, LOOKS_AT_KEY}},
};

/* Where a reference stands, and the value comes back: no place is wanted. */
static const row_t COMES_BACK[] = {
    {"another thread has the container, where something else stands", FULL, SOME, ELSEWHERE, FIRST, NONE, BRC_BUSY, BRC_OK},
    {"something else stands there, and no place", FULL, SOME, ELSEWHERE, FIRST, NONE, BRC_OK, 0},
    {"something else stands there, and no memory", TIGHT, SOME, ELSEWHERE, FIRST, NONE, BRC_OK, 0},
    {0}};
static const row_t NO_KEY[] = {
    {"another thread has the dictionary, which has no such key", FULL, SOME, VALUE, ABSENT, NONE, BRC_BUSY, BRC_NO_SUCH_KEY},
    {"the dictionary is empty", FULL, EMPTY, VALUE, FIRST, NONE, BRC_NO_SUCH_KEY, 0},
    {"the key isn't there", FULL, SOME, VALUE, ABSENT, NONE, BRC_NO_SUCH_KEY, 0},
    {"the key isn't there, and the dictionary is full", FULL, MOST, VALUE, ABSENT, NONE, BRC_NO_SUCH_KEY, 0},
    {0}};

/* A call that puts a value, its objects, and those where scalars stand. */
typedef struct {
    call_t call;
    const char *name;
    object_t of[6], of_scalars[6];
    const row_t *key;           /* NULL, if it has no key that is a text */
    const row_t *puts[3];       /* behind WRONG_KIND; NULL behind the last */
    enum { KEEPS_OLD, GIVES_OLD, GIVES_BACK } gives;    /* what comes out where something stands: that, or the value itself */
} put_t;

static const put_t VALUE_PUTS[] = {
    {PUSH_VALUE, "brc_list_push_value", LISTS, SCALAR_LISTS, NULL, {PUTS}, KEEPS_OLD},
    {SET_VALUE, "brc_list_set_value", LISTS, SCALAR_LISTS, NULL, {SETS}, GIVES_OLD},
    {PUT_VALUE, "brc_list_put_value", LISTS, SCALAR_LISTS, NULL, {PUTS_AT, PUTS}, GIVES_OLD},
    {SEND_VALUE, "brc_send_value", MAILBOXES, SCALAR_MAILBOXES, NULL, {PUTS}, KEEPS_OLD},
    {PUT_INT_VALUE, "brc_dict_put_int_value", DICTS, SCALAR_DICTS, NULL, {PUTS}, GIVES_OLD},
    {PUT_TEXT_VALUE, "brc_dict_put_text_value", DICTS, SCALAR_DICTS, KEY, {PUTS, COPIES}, GIVES_OLD},
    {PUT_BYTES_VALUE, "brc_dict_put_bytes_value", DICTS, SCALAR_DICTS, NULL, {PUTS, COPIES}, GIVES_OLD},
    {PUT_NEW_INT_VALUE, "brc_dict_put_new_int_value", DICTS, SCALAR_DICTS, NULL, {PUTS}, GIVES_BACK},
    {PUT_NEW_TEXT_VALUE, "brc_dict_put_new_text_value", DICTS, SCALAR_DICTS, KEY, {PUTS, COPIES}, GIVES_BACK},
    {SWAP_IF, "brc_list_swap_if", LISTS, SCALAR_LISTS, NULL, {SETS}, GIVES_BACK},
    {SWAP_IF_INT, "brc_dict_swap_if_int", DICTS, SCALAR_DICTS, NULL, {NO_KEY}, GIVES_BACK},
    {SWAP_IF_TEXT, "brc_dict_swap_if_text", DICTS, SCALAR_DICTS, KEY, {NO_KEY}, GIVES_BACK},
};

/* ---- The heap that they are played in */

static brc_heap heap, second;
static brc_thread threads[WHO], second_thread;
static brc_ref held[WHO][OBJECTS], spent[WHO][OBJECTS], away[WHO];
static brc_ref elsewhere;       /* of the second heap */

static brc_ref none(brc_thread *t) {
    brc_ref made;
    MUST(brc_none(t, &made));
    return made;
}

/* The thread leaves, in as many calls as that takes. */
static void leave(brc_thread *t) {
    brc_status s = brc_thread_leave(t);
    for (int i = 0; s == BRC_BUSY && i < TRIES; i++) {
        sched_yield();
        s = brc_thread_leave(t);
    }
    MUST(s);
}

static void make_objects(brc_thread *t, brc_ref *made) {
    MUST(brc_new_list(t, &made[EMPTY_LIST]));
    MUST(brc_new_list(t, &made[LIST]));
    MUST(brc_new_list(t, &made[SCALAR_LIST]));
    MUST(brc_new_list(t, &made[FULL_LIST]));
    MUST(brc_new_dict(t, &made[EMPTY_DICT]));
    MUST(brc_new_dict(t, &made[DICT]));
    MUST(brc_new_dict(t, &made[SCALAR_DICT]));
    MUST(brc_new_dict(t, &made[FULL_DICT]));
    MUST(brc_new_mailbox(t, &made[EMPTY_MAILBOX]));
    MUST(brc_new_mailbox(t, &made[MAILBOX]));
    MUST(brc_new_mailbox(t, &made[SCALAR_MAILBOX]));
    MUST(brc_new_mailbox(t, &made[FULL_MAILBOX]));
    MUST(brc_new_int(t, 1000, &made[INT]));
    MUST(brc_new_str(t, "a text that no thread has read", &made[TEXT]));
}

static brc_status put_one(object_t container, int64_t key, brc_ref value) {
    brc_thread *t = &threads[READY];
    const brc_ref into = held[READY][container];
    brc_ref old;
    if (container <= FULL_LIST) return brc_list_push(t, into, value);
    if (container <= FULL_DICT) return brc_dict_put_int(t, into, key, value, &old);
    return brc_send(t, into, value);
}

static void fill(object_t container) {
    brc_ref value = none(&threads[READY]);
    size_t len;
    brc_status s;
    for (int64_t key = 0; (s = put_one(container, key, value)) == BRC_OK; key++) value = none(&threads[READY]);
    settle(s, BRC_FULL);
    MUST(brc_release(&threads[READY], value));
    MUST(brc_len_of(&threads[READY], held[READY][container], &len));
    CHECK(len == ENTRIES);
}

/* References to an integer come until one more needs memory. It is known by its number. A dictionary's first key is a text. */
static void fill_what_is_had(object_t container) {
    brc_thread *t = &threads[READY];
    brc_ref one, more, old;
    brc_status s;
    MUST(brc_new_int(t, 2000 + (int64_t)container, &one));
    MUST(brc_retain(t, one, &more));
    if (container == DICT) {
        MUST(brc_put(t, held[READY][DICT], "key", more, &old));
        MUST(brc_retain(t, one, &more));
    }
    MUST(put_one(container, 0, more));
    MUST(brc_retain(t, one, &more));
    given = NONE;
    for (int64_t key = 1; (s = put_one(container, key, more)) == BRC_OK; key++) MUST(brc_retain(t, one, &more));
    given = ALL;
    settle(s, BRC_OUT_OF_MEMORY);
    MUST(brc_release(t, more));
    MUST(brc_release(t, one));
}

/* The scalars of the containers. Their bits are a number of another heap. */
static brc_value scalar(void) { return brc_of_bits(LABEL, elsewhere); }

static int is_scalar(const brc_value *value) {
    return value->holds == BRC_SCALAR && value->label == LABEL && value->bits == elsewhere;
}

static brc_status put_scalar(object_t container, int64_t key) {
    brc_thread *t = &threads[READY];
    const brc_ref into = held[READY][container];
    brc_value old;
    if (container == SCALAR_LIST) return brc_list_push_value(t, into, scalar());
    if (container == SCALAR_DICT) return brc_dict_put_int_value(t, into, key, scalar(), &old);
    return brc_send_value(t, into, scalar());
}

/* Scalars come until one more needs memory. A dictionary's first key is a text. */
static void fill_with_scalars(object_t container) {
    brc_thread *t = &threads[READY];
    const uint8_t *text = (const uint8_t *)"key";
    brc_value old;
    brc_status s;
    if (container == SCALAR_DICT) MUST(brc_dict_put_text_value(t, held[READY][SCALAR_DICT], text, 3, scalar(), &old));
    MUST(put_scalar(container, 0));
    given = NONE;
    for (int64_t key = 1; (s = put_scalar(container, key)) == BRC_OK; key++) { }
    given = ALL;
    settle(s, BRC_OUT_OF_MEMORY);
}

/* The thread puts a value, and keeps a reference to None from then on. */
static void keep_none(who_t who) {
    brc_value value;
    MUST(brc_list_push_value(&threads[who], held[who][SCALAR_LIST], scalar()));
    MUST(brc_list_pop_value(&threads[who], held[who][SCALAR_LIST], &value));
    CHECK(is_scalar(&value));
}

/* The others find the objects in the globals. */
static void share(void) {
    brc_ref globals[WHO], more, old;
    for (int who = READY; who < WHO; who++) MUST(brc_globals(&threads[who], &globals[who]));
    for (int i = 0; i < OBJECTS; i++) {
        MUST(brc_retain(&threads[READY], held[READY][i], &more));
        MUST(brc_dict_put_int(&threads[READY], globals[READY], i, more, &old));
        for (int who = FULL; who < WHO; who++) MUST(brc_dict_find_int(&threads[who], globals[who], i, &held[who][i]));
    }
    for (int who = READY; who < WHO; who++) MUST(brc_release(&threads[who], globals[who]));
}

/* Numbers that the thread had: one of each object, and one of an entry of a list. */
static void spend(who_t who) {
    for (int i = 0; i < OBJECTS; i++) {
        MUST(brc_retain(&threads[who], held[who][i], &spent[who][i]));
        MUST(brc_release(&threads[who], spent[who][i]));
    }
    away[who] = none(&threads[who]);
    MUST(brc_list_push(&threads[who], held[who][FULL_LIST], away[who]));
}

/* The thread has no place for a reference more without memory, but for `places`. */
static void tighten(who_t who, int places) {
    brc_ref spare[8], more;
    brc_status s = BRC_OK;
    for (int i = 0; i < places; i++) spare[i] = none(&threads[who]);
    given = NONE;
    while (s == BRC_OK) s = brc_none(&threads[who], &more);
    given = ALL;
    settle(s, BRC_OUT_OF_MEMORY);
    for (int i = 0; i < places; i++) MUST(brc_release(&threads[who], spare[i]));
}

static void fill_heap_and_frame(void) {
    brc_ref made;
    brc_status s = BRC_OK;
    for (int64_t i = 3000; s == BRC_OK; i++) s = brc_new_int(&threads[READY], i, &made);
    settle(s, BRC_HEAP_FULL);
    while (brc_count(&threads[FULL]) < REFERENCES) none(&threads[FULL]);
    while (brc_count(&threads[KEEPS]) < REFERENCES - 1) none(&threads[KEEPS]);
}

static void build(void) {
    begin("build", "the heap of all calls by numbers");
    MUST(brc_heap_new(&second.at, 512, 1, 1024));
    MUST(brc_thread_open(&second, &second_thread));
    MUST(brc_new_int(&second_thread, 1000, &elsewhere));
    MUST(brc_heap_open(&heap, 512));
    for (int who = READY; who < WHO; who++) MUST(brc_thread_open(&heap, &threads[who]));
    make_objects(&threads[READY], held[READY]);
    share();
    for (int who = READY; who < WHO; who++) spend((who_t)who);
    MUST(brc_release_all(&threads[LEFT]));
    leave(&threads[LEFT]);
    keep_none(READY);
    keep_none(TIGHT);
    keep_none(KEEPS);
    for (object_t it = EMPTY_LIST; it < INT; it += 4) {
        fill_what_is_had(it + 1);
        fill_with_scalars(it + 2);
        fill(it + 3);
    }
    fill_heap_and_frame();
    tighten(READY, 8);
    tighten(TIGHT, 0);
    tighten(BARE, 0);
    brc_poll(&threads[READY]);
}

static void take_down(void) {
    brc_thread *t = &threads[READY];
    brc_ref globals, value;
    uint64_t live, cycles;
    begin("take down", "the heap of all calls by numbers");
    MUST(brc_globals(t, &globals));
    for (int i = 0; i < OBJECTS; i++) {
        MUST(brc_dict_del_int(t, globals, i, &value));
        MUST(brc_release(t, value));
    }
    for (int who = READY; who < LEFT; who++) MUST(brc_release_all(&threads[who]));
    for (int who = READY; who < WHO; who++) {
        if (who != LEFT) leave(&threads[who]);
        brc_thread_drop(threads[who]);
    }
    MUST(brc_heap_close(&heap, &live, &cycles));
    CHECK(live == 0 && cycles == 0);
    brc_heap_drop(heap);
    brc_heap_drop(second);
    brc_thread_drop(second_thread);
    CHECK(blocks == 0);
}

/* ---- They are played */

/* What is seen of an object by one thread: whether its number names it, and how many entries, or which number, it has. */
typedef struct {
    brc_status named, was_named;
    brc_kind kind;
    size_t len;
    int64_t number;
} object_look_t;

typedef struct {
    size_t counts[WHO];
    uint64_t ledgers[WHO][2], allocs, frees;
    uint32_t registered, left;
    object_look_t objects[WHO][OBJECTS];
    int64_t first_of_list, first_of_dict;
    brc_value first_scalars[2];
    long blocks;
} look_t;

static void look_at(who_t who, object_t object, object_look_t *to) {
    brc_thread *t = &threads[who];
    uint32_t is_same;
    to->named = brc_kind_of(t, held[who][object], &to->kind);
    to->was_named = brc_same(t, spent[who][object], spent[who][object], &is_same);
    if (object < INT) (void)brc_len_of(t, held[who][object], &to->len);
    if (object == INT) (void)brc_int_of(t, held[who][object], &to->number);
}

static void look(look_t *to) {
    brc_ref first;
    memset(to, 0, sizeof *to);
    for (int who = READY; who < WHO; who++) {
        to->counts[who] = brc_count(&threads[who]);
        (void)brc_ledger(&threads[who], &to->ledgers[who][0], &to->ledgers[who][1]);
        for (int i = 0; i < OBJECTS; i++) look_at((who_t)who, (object_t)i, &to->objects[who][i]);
    }
    MUST(brc_list_get(&threads[READY], held[READY][LIST], 0, &first));
    MUST(brc_int_of(&threads[READY], first, &to->first_of_list));
    MUST(brc_release(&threads[READY], first));
    MUST(brc_dict_find_int(&threads[READY], held[READY][DICT], 0, &first));
    MUST(brc_int_of(&threads[READY], first, &to->first_of_dict));
    MUST(brc_release(&threads[READY], first));
    MUST(brc_list_get_value(&threads[READY], held[READY][SCALAR_LIST], 0, &to->first_scalars[0]));
    MUST(brc_dict_find_int_value(&threads[READY], held[READY][SCALAR_DICT], 0, &to->first_scalars[1]));
    CHECK(is_scalar(&to->first_scalars[0]) && is_scalar(&to->first_scalars[1]));
    MUST(brc_heap_counts(&heap, &to->registered, &to->left, &to->allocs, &to->frees));
    to->blocks = blocks;
}

static brc_ref number_of(who_t who, number_t which, object_t object) {
    switch (which) {
    case ZERO: return BRC_NONE;
    case THEIRS: return held[who == READY ? FULL : READY][object];
    case ELSEWHERE: return elsewhere;
    case SPENT: return spent[who][object];
    case AWAY: return away[who];
    default: return held[who][object];
    }
}

static object_t object_of(const about_t *about, const row_t *row) { return about->of[row->one < WRONG ? 0 : row->one - WRONG]; }

static inputs_t inputs_of(const about_t *about, const row_t *row, uint32_t holds) {
    static const char *const TEXT_KEYS[] = {"key", "key", "another key", "another key", "\xff"};
    const object_t object = object_of(about, row);
    inputs_t in;
    size_t len = 0;
    if (object < INT) MUST(brc_len_of(&threads[READY], held[READY][object], &len));
    in.one = number_of(row->who, row->one, object);
    in.other = row->other == TWICE ? in.one : number_of(row->who, row->other, INT);
    in.holds = holds;
    in.expected = scalar();
    in.key = row->at <= SECOND ? 0 : -1;
    in.index = row->at <= SECOND ? (uint32_t)row->at : row->at == ABSENT ? (uint32_t)len : UINT32_MAX;
    in.bytes = (const uint8_t *)TEXT_KEYS[row->at];
    in.len = strlen(TEXT_KEYS[row->at]);
    return in;
}

/* The call, whose status must be this one. */
static void expect(const about_t *about, const row_t *row, const inputs_t *in, brc_status wanted) {
    outs_t out;
    brc_status s;
    memset(&out, UNWRITTEN, sizeof out);
    given = row->given;
    s = make_call(about->call, &threads[row->who], in, &out);
    given = ALL;
    settle(s, wanted);
    CHECK(s == BRC_OK || is_unwritten(&out, sizeof out));
    CHECK(s != BRC_OK || about->call < PUSH_VALUE || is_scalar(&out.datum));
}

/* One of TIGHT's calls is stopped with the object locked. Returns whether it has it locked: so says another call. */
static int hold_object(hold_t *h, object_t object) {
    brc_kind kind;
    MUST(brc_kind_of(&threads[TIGHT], held[TIGHT][object], &kind));
    hold(h, &threads[TIGHT], kind, held[TIGHT][object]);
    return brc_kind_of(&threads[READY], held[READY][object], &kind) == BRC_BUSY;
}

/* Statuses that come before BUSY, if the call has it: so they are wanted while the object is locked. */
static int comes_first(const row_t *row) {
    const brc_status s = row->wanted;
    if (s == BRC_GONE || s == BRC_NOT_TEXT || s == BRC_NOT_VALUE || s == BRC_FOREIGN || s == BRC_STALE) return 1;
    return s == BRC_SAME || s == BRC_BUSY || (s != BRC_OK && s == row->otherwise);
}

static void play(const about_t *about, const row_t *row, uint32_t holds) {
    look_t before, after;
    hold_t h;
    inputs_t in;
    int is_seen = 1;
    begin_row(about->name, row->what);
    in = inputs_of(about, row, holds);
    look(&before);
    if (comes_first(row)) {
        is_seen = hold_object(&h, object_of(about, row)) || row->wanted != BRC_BUSY;
        expect(about, row, &in, is_seen ? row->wanted : row->otherwise);
        let_go(&h);
    }
    if (row->wanted == BRC_BUSY) expect(about, row, &in, row->otherwise);
    else expect(about, row, &in, row->wanted);
    look(&after);
    CHECK(memcmp(&before, &after, sizeof before) == 0);
    if (!is_seen) not_seen();
}

static void play_all(void) {
    for (size_t i = 0; i < sizeof ABOUT / sizeof ABOUT[0]; i++)
        for (int k = 0; ABOUT[i].parts[k] != NULL; k++)
            for (const row_t *row = ABOUT[i].parts[k]; row->what != NULL; row++) play(&ABOUT[i], row, BRC_NO_VALUE);
}

/* Rows of a put, with a value that holds this. Where the rows have FULL, `full` calls. */
static void play_part(const put_t *put, who_t full, uint32_t holds, const row_t *part) {
    about_t about = {put->call, put->name, ANY, {NULL}};
    memcpy(about.of, part == FOR_SCALAR ? put->of_scalars : put->of, sizeof about.of);
    for (const row_t *row = part; row != NULL && row->what != NULL; row++) {
        row_t here = *row;
        if (here.who == FULL) here.who = full;
        play(&about, &here, holds);
    }
}

/* FULL makes a reference to None in a put, if it gets so far; KEEPS has one. */
static void play_put(const put_t *put, uint32_t holds) {
    const int has_number = holds == BRC_REFERENCE;
    play_part(put, FULL, holds, put->key);
    play_part(put, FULL, holds, has_number ? NUMBERS_OF_TWO : NUMBER);
    if (has_number) play_part(put, FULL, holds, ONE_TWICE);
    play_part(put, FULL, holds, MAKES_NONE);
    play_part(put, KEEPS, holds, OTHER_KIND);
    play_part(put, KEEPS, holds, OTHER_CONTAINER);
    if (!has_number) play_part(put, KEEPS, holds, ANY_BITS);
    for (int k = 0; put->puts[k] != NULL; k++) play_part(put, KEEPS, holds, put->puts[k]);
    if (has_number || put->gives == KEEPS_OLD) return;
    play_part(put, KEEPS, holds, put->gives == GIVES_OLD ? FOR_REFERENCE : COMES_BACK);
    play_part(put, KEEPS, holds, FOR_SCALAR);
}

/* What is expected is none of the three, or its number names none: that comes before all but the thread and the key. */
static void play_expected(const put_t *put) {
    static const struct { const char *what; uint32_t holds; number_t number; brc_status wanted; } EXPECTED[] = {
        {"what is expected is none of the three", BRC_REFERENCE + 1, VALUE, BRC_NOT_VALUE},
        {"what is expected has the number 0", BRC_REFERENCE, ZERO, BRC_FOREIGN},
        {"what is expected is another thread's", BRC_REFERENCE, THEIRS, BRC_FOREIGN},
        {"what is expected is another heap's", BRC_REFERENCE, ELSEWHERE, BRC_FOREIGN},
        {"what is expected was released", BRC_REFERENCE, SPENT, BRC_STALE},
        {"what is expected was given away", BRC_REFERENCE, AWAY, BRC_STALE},
    };
    static const number_t CONTAINERS[] = {ZERO, SPENT, WRONG, SOME, MOST};
    about_t about = {put->call, put->name, ANY, {NULL}};
    memcpy(about.of, put->of, sizeof about.of);
    for (size_t i = 0; i < sizeof EXPECTED / sizeof EXPECTED[0]; i++)
        for (size_t k = 0; k < sizeof CONTAINERS / sizeof CONTAINERS[0]; k++) {
            const row_t row = {EXPECTED[i].what, FULL, CONTAINERS[k], TWICE, FIRST, NONE, EXPECTED[i].wanted, 0};
            inputs_t in = inputs_of(&about, &row, BRC_REFERENCE);
            look_t before, after;
            begin_row(put->name, row.what);
            in.expected.holds = EXPECTED[i].holds;
            in.expected.bits = number_of(FULL, EXPECTED[i].number, INT);
            look(&before);
            expect(&about, &row, &in, row.wanted);
            look(&after);
            CHECK(memcmp(&before, &after, sizeof before) == 0);
        }
}

static void play_puts(void) {
    for (size_t i = 0; i < sizeof VALUE_PUTS / sizeof VALUE_PUTS[0]; i++) {
        const put_t *put = &VALUE_PUTS[i];
        play_part(put, FULL, BRC_REFERENCE + 1, put->key);
        play_part(put, FULL, BRC_REFERENCE + 1, NOT_VALUES);
        play_part(put, FULL, UINT32_MAX, LARGEST);
        play_put(put, BRC_REFERENCE);
        play_put(put, BRC_SCALAR);
        play_put(put, BRC_NO_VALUE);
        if (put->call >= SWAP_IF && put->call <= SWAP_IF_TEXT) play_expected(put);
    }
}

/* More values than a container has entries, of which the first is none of the three, or names nothing. */
static void play_too_many(uint32_t holds, brc_status wanted) {
    static brc_value many[ENTRIES + 1];
    look_t before, after;
    brc_ref made = BRC_NONE;
    begin_row("brc_new_list_of", "more values than a container has");
    many[0].holds = holds;
    look(&before);
    given = NONE;
    settle(brc_new_list_of(&threads[FULL], many, ENTRIES + 1, &made), wanted);
    given = ALL;
    look(&after);
    CHECK(made == BRC_NONE && memcmp(&before, &after, sizeof before) == 0);
}

static void play_lists(void) {
    static const put_t LIST_OF = {NEW_LIST_OF, "brc_new_list_of", ANY, ANY, NULL, {NULL}, 0};
    play_part(&LIST_OF, FULL, BRC_REFERENCE + 1, NOT_VALUES);
    play_part(&LIST_OF, FULL, UINT32_MAX, LARGEST);
    play_too_many(BRC_REFERENCE + 1, BRC_NOT_VALUE);
    play_too_many(BRC_REFERENCE, BRC_FULL);
    play_part(&LIST_OF, FULL, BRC_REFERENCE, NUMBERS_OF_TWO);
    play_part(&LIST_OF, FULL, BRC_REFERENCE, ONE_TWICE);
    play_part(&LIST_OF, FULL, BRC_REFERENCE, MAKES_OF_REFERENCES);
    play_part(&LIST_OF, FULL, BRC_SCALAR, MAKES_A_LIST);
    play_part(&LIST_OF, FULL, BRC_NO_VALUE, MAKES_A_LIST);
}

/* Calls that are never BUSY, while the object and the register are locked. */
static void play_unlocked(void) {
    brc_thread *t = &threads[READY];
    const brc_ref object = held[READY][LIST];
    brc_ref more;
    uint64_t allocs, frees, identity, other;
    uint32_t word;
    hold_t h, registers;
    begin_row("brc_retain", "another thread has the object");
    if (!hold_object(&h, LIST)) not_seen();
    hold(&registers, &threads[FULL], 0, BRC_NONE);
    MUST(brc_retain(t, object, &more));
    MUST(brc_same(t, object, more, &word));
    CHECK(word == 1);
    MUST(brc_identity(t, object, &identity));
    MUST(brc_identity(t, more, &other));
    CHECK(identity == other);
    MUST(brc_identity(t, held[READY][TEXT], &other));
    CHECK(identity != other);
    settle(brc_truth_of(t, object, &word), BRC_WRONG_KIND);
    MUST(brc_release(t, more));
    settle(brc_release(t, more), BRC_STALE);
    MUST(brc_release(t, none(t)));
    settle(brc_new_int(t, 1000, &more), BRC_HEAP_FULL);
    settle(brc_release_all(&threads[LEFT]), BRC_GONE);
    MUST(brc_ledger(t, &allocs, &frees));
    MUST(brc_claim(t, 0, 0));
    CHECK(brc_poll(t) == 0 && brc_work(t, 7) == 7);
    let_go(&registers);
    let_go(&h);
}

/* Two numbers, of which the second names an object that is locked, or both do. */
static void play_second_locked(void) {
    brc_thread *t = &threads[READY];
    const brc_ref text = held[READY][TEXT], list = held[READY][LIST];
    uint32_t is_same = 7;
    hold_t h;
    int is_seen;
    begin_row("brc_text_equal", "another thread has the second, of another kind");
    is_seen = hold_object(&h, LIST);
    if (!is_seen) not_seen();
    settle(brc_text_equal(t, text, list, &is_same), is_seen ? BRC_BUSY : BRC_WRONG_KIND);
    CHECK(is_same == 7);
    MUST(brc_text_equal(t, list, list, &is_same));
    CHECK(is_same == 1);
    let_go(&h);
    settle(brc_text_equal(t, text, list, &is_same), BRC_WRONG_KIND);
}

/* ---- Heaps and threads */

/* How a heap is, as a set. It has two threads, or 64. The first may have a reference, or a dead list to take apart, or it has
 * left. Or all have left, and a list that holds itself remains. Then the heap may be closed, or have ended without a report.
 * HELD: a call of the second thread has the register. */
enum { OPEN = 0, MANY = 1, REFERENCE = 2, DEAD = 4, ONE_LEFT = 8, ALL_LEFT = 16, CLOSED = 32, ENDED = 64, HELD = 128 };

typedef struct {
    brc_heap heap;              /* with NULL in it once it is dropped, as a thread's variable */
    brc_thread threads[MOST_THREADS + 1];
    int count;
    uint64_t live;              /* how many objects remain */
    brc_status closes;          /* what brc_heap_close must return once all threads have left */
} life_t;

typedef enum { COUNTS, CLOSE, REPORT, NEW, FORK, LEAVE } heap_call_t;

typedef struct {
    brc_thread made;
    uint32_t registered, left;
    uint64_t allocs, frees, live, cycles;
    size_t len;
    uint8_t text[32];
} heap_outs_t;

static brc_status call_heap(life_t *l, heap_call_t call, long may_have, heap_outs_t *out) {
    brc_status s;
    memset(out, UNWRITTEN, sizeof *out);
    given = may_have;
    switch (call) {
    case COUNTS: s = brc_heap_counts(&l->heap, &out->registered, &out->left, &out->allocs, &out->frees); break;
    case CLOSE: s = brc_heap_close(&l->heap, &out->live, &out->cycles); break;
    case REPORT: s = brc_heap_report(&l->heap, 0, out->text, sizeof out->text, &out->len); break;
    case NEW: s = brc_thread_new(&l->heap, &out->made.at); break;
    case FORK: s = brc_thread_fork(&l->threads[0], &out->made.at); break;
    default: s = brc_thread_leave(&l->threads[0]); break;
    }
    given = ALL;
    return s;
}

/* The call, whose status must be this one. A refused one has written nothing. */
static void expect_heap(life_t *l, heap_call_t call, long may_have, brc_status wanted) {
    heap_outs_t out;
    settle(call_heap(l, call, may_have, &out), wanted);
    CHECK(wanted == BRC_OK || is_unwritten(&out, sizeof out));
}

static void make_dead_list(brc_thread *t) {
    brc_ref list;
    MUST(brc_new_list(t, &list));
    for (int i = 0; i < DEAD_ENTRIES; i++) MUST(brc_list_push(t, list, none(t)));
    MUST(brc_release(t, list));
}

static void leak(life_t *l) {
    brc_thread *t = &l->threads[0];
    brc_ref list, more;
    MUST(brc_new_list(t, &list));
    MUST(brc_retain(t, list, &more));
    MUST(brc_list_push(t, list, more));
    MUST(brc_release(t, list));
    l->live = 1;
}

static void arrange(life_t *l, int how) {
    brc_ref made;
    memset(l, 0, sizeof *l);
    MUST(brc_heap_open(&l->heap, 512));
    l->count = how & MANY ? MOST_THREADS : 2;
    for (int i = 0; i < l->count; i++) MUST(brc_thread_open(&l->heap, &l->threads[i]));
    if (how & REFERENCE) MUST(brc_new_int(&l->threads[0], 1000, &made));
    if (how & DEAD) make_dead_list(&l->threads[0]);
    if (how & ONE_LEFT) leave(&l->threads[0]);
    if (how & MANY && how & ONE_LEFT) MUST(brc_thread_open(&l->heap, &l->threads[l->count++]));
    if (how & (ALL_LEFT | CLOSED | ENDED)) {
        leak(l);
        for (int i = 0; i < l->count; i++) leave(&l->threads[i]);
    }
    if (how & CLOSED) expect_heap(l, CLOSE, ALL, BRC_OK);
    if (how & ENDED) expect_heap(l, CLOSE, NONE, BRC_OUT_OF_MEMORY);
    l->closes = how & ENDED ? BRC_GONE : BRC_OK;
}

/* A call of the second thread is stopped with the register. Returns whether it has it: so says another call. */
static int hold_register(life_t *l, hold_t *h) {
    heap_outs_t out;
    hold(h, &l->threads[1], 0, BRC_NONE);
    return call_heap(l, COUNTS, ALL, &out) == BRC_BUSY;
}

static void drop(brc_thread *t) {
    brc_thread_drop(*t);
    t->at = NULL;
}

/* The threads leave, and the heap is closed and dropped. */
static void end_life(life_t *l) {
    heap_outs_t out;
    for (int i = 0; i < l->count; i++) {
        if (l->threads[i].at == NULL) continue;
        if (brc_release_all(&l->threads[i]) == BRC_OK) leave(&l->threads[i]);
        drop(&l->threads[i]);
    }
    if (l->heap.at == NULL) return;
    settle(call_heap(l, CLOSE, ALL, &out), l->closes);
    CHECK(l->closes != BRC_OK || (out.live == l->live && out.cycles == l->live));
    brc_heap_drop(l->heap);
}

typedef struct {
    brc_status counted, reported[2];
    uint32_t registered, left;
    uint64_t allocs, frees, ledgers[2][2];
    size_t counts[2];
    long blocks;
} life_look_t;

static void look_at_life(life_t *l, life_look_t *to) {
    memset(to, 0, sizeof *to);
    to->counted = brc_heap_counts(&l->heap, &to->registered, &to->left, &to->allocs, &to->frees);
    for (int i = 0; i < 2; i++) {
        to->counts[i] = brc_count(&l->threads[i]);
        to->reported[i] = brc_ledger(&l->threads[i], &to->ledgers[i][0], &to->ledgers[i][1]);
    }
    to->blocks = blocks;
}

/* BUSY and TOO_MANY_THREADS can't hold at once: only a call that registers a thread can be stopped with the register. */
typedef struct {
    const char *name, *what;
    int how;
    heap_call_t call;
    long given;
    brc_status wanted, otherwise;
} life_row_t;

static const life_row_t LIVES[] = {
    {"brc_heap_counts", "the heap is closed", CLOSED, COUNTS, NONE, BRC_GONE, 0},
    {"brc_heap_counts", "the heap has ended without a report", ENDED, COUNTS, NONE, BRC_GONE, 0},
    {"brc_heap_counts", "another call has the register", HELD, COUNTS, NONE, BRC_BUSY, BRC_OK},

    {"brc_heap_close", "the heap has ended without a report", ENDED, CLOSE, NONE, BRC_GONE, 0},
    {"brc_heap_close", "another call has the register, and threads haven't left", HELD, CLOSE, NONE, BRC_BUSY, BRC_MISSING},
    {"brc_heap_close", "a thread hasn't left", ONE_LEFT, CLOSE, NONE, BRC_MISSING, 0},
    {"brc_heap_close", "no memory for the report", ALL_LEFT, CLOSE, NONE, BRC_OUT_OF_MEMORY, 0},

    {"brc_heap_report", "the heap isn't closed", OPEN, REPORT, NONE, BRC_NOT_IDLE, 0},
    {"brc_heap_report", "the heap isn't closed, and all have left", ALL_LEFT, REPORT, NONE, BRC_NOT_IDLE, 0},
    {"brc_heap_report", "the heap has ended without a report", ENDED, REPORT, NONE, BRC_GONE, 0},
    {"brc_heap_report", "no memory for the text", CLOSED, REPORT, NONE, BRC_OUT_OF_MEMORY, 0},

    {"brc_thread_new", "the heap is closed, and no memory", CLOSED, NEW, NONE, BRC_OUT_OF_MEMORY, 0},
    {"brc_thread_new", "the heap is closed", CLOSED, NEW, ROOM, BRC_GONE, 0},
    {"brc_thread_new", "the heap has ended without a report", ENDED, NEW, ROOM, BRC_GONE, 0},
    {"brc_thread_new", "no memory for numbers, and another call has the register", HELD, NEW, ROOM, BRC_OUT_OF_MEMORY, 0},
    {"brc_thread_new", "half the memory for numbers, and 64 threads", MANY, NEW, NUMBERS - 1, BRC_OUT_OF_MEMORY, 0},
    {"brc_thread_new", "another call has the register", HELD, NEW, NUMBERS, BRC_BUSY, BRC_OUT_OF_MEMORY},
    {"brc_thread_new", "64 threads", MANY, NEW, NUMBERS, BRC_TOO_MANY_THREADS, 0},
    {"brc_thread_new", "memory for numbers only", OPEN, NEW, NUMBERS, BRC_OUT_OF_MEMORY, 0},
    {"brc_thread_new", "memory for all but the last block", OPEN, NEW, THREAD - 1, BRC_OUT_OF_MEMORY, 0},

    {"brc_thread_fork", "the thread has left, and no memory", ONE_LEFT | HELD, FORK, NONE, BRC_OUT_OF_MEMORY, 0},
    {"brc_thread_fork", "the thread has left, and another call has the register", ONE_LEFT | HELD, FORK, ROOM, BRC_GONE, 0},
    {"brc_thread_fork", "the thread has left, and there are 64 others", ONE_LEFT | MANY, FORK, ROOM, BRC_GONE, 0},
    {"brc_thread_fork", "no memory for numbers, and another call has the register", HELD, FORK, ROOM, BRC_OUT_OF_MEMORY, 0},
    {"brc_thread_fork", "half the memory for numbers, and 64 threads", MANY, FORK, NUMBERS - 1, BRC_OUT_OF_MEMORY, 0},
    {"brc_thread_fork", "another call has the register", HELD, FORK, NUMBERS, BRC_BUSY, BRC_OUT_OF_MEMORY},
    {"brc_thread_fork", "64 threads", MANY, FORK, NUMBERS, BRC_TOO_MANY_THREADS, 0},
    {"brc_thread_fork", "memory for numbers only", OPEN, FORK, NUMBERS, BRC_OUT_OF_MEMORY, 0},
    {"brc_thread_fork", "memory for all but the last block", OPEN, FORK, THREAD - 1, BRC_OUT_OF_MEMORY, 0},

    {"brc_thread_leave", "the thread has left", ONE_LEFT | HELD, LEAVE, NONE, BRC_GONE, 0},
    {"brc_thread_leave", "a reference, and a dead list to take apart", REFERENCE | DEAD | HELD, LEAVE, NONE, BRC_NOT_IDLE, 0},
    {"brc_thread_leave", "a dead list to take apart", DEAD, LEAVE, NONE, BRC_BUSY, BRC_BUSY},
    {"brc_thread_leave", "another call has the register", HELD, LEAVE, NONE, BRC_BUSY, BRC_OK},
};

/* Whether a call that was refused so may have changed something: brc.h names two. */
static int may_change(const life_row_t *row) {
    return (row->call == LEAVE && row->wanted == BRC_BUSY) || (row->call == CLOSE && row->wanted == BRC_OUT_OF_MEMORY);
}

static void play_life(const life_row_t *row) {
    const long had = blocks;
    life_t l;
    life_look_t before, after;
    hold_t h;
    int is_seen = 1;
    begin_row(row->name, row->what);
    arrange(&l, row->how);
    look_at_life(&l, &before);
    if (row->how & HELD) is_seen = hold_register(&l, &h) || row->wanted != BRC_BUSY;
    expect_heap(&l, row->call, row->given, is_seen ? row->wanted : row->otherwise);
    if (row->how & HELD) let_go(&h);
    look_at_life(&l, &after);
    CHECK(may_change(row) || memcmp(&before, &after, sizeof before) == 0);
    if (!is_seen) not_seen();
    else if (row->wanted == BRC_BUSY) expect_heap(&l, row->call, row->given, row->otherwise);
    if (row->call == CLOSE && row->wanted == BRC_OUT_OF_MEMORY) l.closes = BRC_GONE;
    end_life(&l);
    CHECK(blocks == had);
}

/* Sizes of a heap. */
static const struct { const char *what; uint32_t cells, limit; brc_status wanted; } SIZES[] = {
    {"no cells", 0, 1, BRC_BAD_OPTIONS},
    {"511 cells", 511, 1, BRC_BAD_OPTIONS},
    {"65,537 cells", 65537, 1, BRC_BAD_OPTIONS},
    {"a local limit of 0", 512, 0, BRC_BAD_OPTIONS},
    {"a local limit of 4,294,967,295", 65536, UINT32_MAX, BRC_BAD_OPTIONS},
    {"no memory", 512, 1, BRC_OUT_OF_MEMORY},
};

static brc_status new_heap(uint32_t cells, uint32_t limit, long may_have, brc_heap *made) {
    const long had = blocks;
    brc_status s;
    memset(made, UNWRITTEN, sizeof *made);
    given = may_have;
    s = brc_heap_new(&made->at, cells, limit, 0);
    given = ALL;
    CHECK(s == BRC_OK || (is_unwritten(made, sizeof *made) && blocks == had));
    return s;
}

static void play_sizes(void) {
    brc_heap made;
    for (size_t i = 0; i < sizeof SIZES / sizeof SIZES[0]; i++) {
        begin_row("brc_heap_new", SIZES[i].what);
        settle(new_heap(SIZES[i].cells, SIZES[i].limit, NONE, &made), SIZES[i].wanted);
    }
}

/* ---- Texts */

/* Lengths of texts, and bytes of them. The first 256 bytes are compared, and then pieces of 4,096. */
static const size_t LENGTHS_OF_TEXTS[] = {0, 1, 255, 256, 257, 4095, 4096, 4097, 4351, 4352, 4353, 8448, 8449, 9000};
static const size_t BYTES_OF_TEXTS[] = {0, 1, 255, 256, 4095, 4096, 4351, 4352, 8447, 8448};

/* Whether a text has the same bytes as a text of these, either way, and by its bytes. No memory is had. */
static void is_equal(brc_thread *t, brc_ref text, const uint8_t *bytes, size_t len, uint32_t wanted) {
    brc_ref other;
    uint32_t is_same = 7;
    MUST(brc_new_text(t, bytes, len, &other));
    given = NONE;
    MUST(brc_text_equal(t, text, other, &is_same));
    CHECK(is_same == wanted);
    MUST(brc_text_equal(t, other, text, &is_same));
    CHECK(is_same == wanted);
    MUST(brc_text_is(t, text, bytes, len, &is_same));
    CHECK(is_same == wanted);
    given = ALL;
    MUST(brc_release(t, other));
    CHECK(brc_work(t, 8) > 0);
}

static void differs_at(brc_thread *t, brc_ref text, uint8_t *bytes, size_t len, size_t at) {
    if (at >= len) return;
    bytes[at] ^= 1;
    is_equal(t, text, bytes, len, 0);
    bytes[at] ^= 1;
}

static void play_texts(void) {
    static uint8_t bytes[9001];
    life_t l;
    brc_thread *t = &l.threads[0];
    brc_ref text;
    arrange(&l, OPEN);
    for (size_t i = 0; i < sizeof bytes; i++) bytes[i] = (uint8_t)('a' + i % 23);
    for (size_t i = 0; i < sizeof LENGTHS_OF_TEXTS / sizeof LENGTHS_OF_TEXTS[0]; i++) {
        const size_t len = LENGTHS_OF_TEXTS[i];
        char what[32];
        snprintf(what, sizeof what, "texts of %zu bytes", len);
        begin_row("brc_text_equal", what);
        MUST(brc_new_text(t, bytes, len, &text));
        is_equal(t, text, bytes, len, 1);
        is_equal(t, text, bytes, len + 1, 0);
        for (size_t k = 0; k < sizeof BYTES_OF_TEXTS / sizeof BYTES_OF_TEXTS[0]; k++)
            differs_at(t, text, bytes, len, BYTES_OF_TEXTS[k]);
        if (len > 0) differs_at(t, text, bytes, len, len - 1);
        MUST(brc_release(t, text));
    }
    begin("brc_text_equal", "the heap of the texts");
    end_life(&l);
    CHECK(blocks == 0);
}

/* Each of the heap's allocations is refused, with all later ones. */
static void opens_with_memory(void) {
    brc_heap made;
    brc_status s;
    long n = 0;
    while ((s = new_heap(512, 1, n, &made)) == BRC_OUT_OF_MEMORY && n < TRIES) n++;
    MUST(s);
    brc_heap_drop(made);
}

/* ---- Several calls, one after the other */

static void is_of_the_page(void) { MUST(brc_version() == BRC_VERSION ? BRC_OK : NOT_SO); }

static void closes_after_a_refusal(void) {
    life_t l;
    brc_ref made;
    arrange(&l, OPEN);
    expect_heap(&l, CLOSE, ALL, BRC_MISSING);
    MUST(brc_new_int(&l.threads[0], 1000, &made));
    expect_heap(&l, CLOSE, ALL, BRC_MISSING);
    expect_heap(&l, REPORT, ALL, BRC_NOT_IDLE);
    end_life(&l);
}

static void closes_twice(void) {
    static const char first_line[] = "ledger 1 0 1\n";
    life_t l;
    heap_outs_t first, again;
    arrange(&l, ALL_LEFT);
    MUST(call_heap(&l, CLOSE, ALL, &first));
    CHECK(first.live == 1 && first.cycles == 1);
    MUST(call_heap(&l, CLOSE, NONE, &again));
    CHECK(memcmp(&first, &again, sizeof first) == 0);
    expect_heap(&l, COUNTS, ALL, BRC_GONE);
    expect_heap(&l, NEW, ALL, BRC_GONE);
    expect_heap(&l, REPORT, NONE, BRC_OUT_OF_MEMORY);
    MUST(call_heap(&l, REPORT, ALL, &again));
    CHECK(again.len >= sizeof again.text && memcmp(again.text, first_line, sizeof first_line - 1) == 0);
    MUST(call_heap(&l, CLOSE, ALL, &again));
    CHECK(memcmp(&first, &again, sizeof first) == 0);
    end_life(&l);
}

static void ends_without_a_report(void) {
    life_t l;
    arrange(&l, ENDED);
    expect_heap(&l, CLOSE, ALL, BRC_GONE);
    expect_heap(&l, COUNTS, ALL, BRC_GONE);
    expect_heap(&l, REPORT, ALL, BRC_GONE);
    expect_heap(&l, NEW, ALL, BRC_GONE);
    end_life(&l);
}

static void threads_work_on(void) {
    life_t l;
    brc_ref made;
    brc_thread forked;
    arrange(&l, OPEN);
    brc_heap_drop(l.heap);
    l.heap.at = NULL;
    MUST(brc_new_int(&l.threads[0], 1000, &made));
    MUST(brc_thread_fork(&l.threads[1], &forked.at));
    settle(brc_release(&forked, made), BRC_FOREIGN);
    leave(&forked);
    brc_thread_drop(forked);
    MUST(brc_release(&l.threads[0], made));
    end_life(&l);
}

/* The second thread makes two objects. The first finds one of them, and is its only holder once the second is dropped. */
static void drops_its_references(void) {
    life_t l;
    brc_thread *one, *two;
    brc_ref globals, made, found, old;
    int64_t value;
    heap_outs_t out;
    arrange(&l, OPEN);
    one = &l.threads[0];
    two = &l.threads[1];
    MUST(brc_globals(two, &globals));
    MUST(brc_new_int(two, 1000, &made));
    MUST(brc_dict_put_int(two, globals, 1, made, &old));
    MUST(brc_new_list(two, &made));
    MUST(brc_list_push(two, made, none(two)));
    MUST(brc_globals(one, &globals));
    MUST(brc_dict_del_int(one, globals, 1, &found));
    drop(two);
    MUST(brc_int_of(one, found, &value));
    CHECK(value == 1000);
    MUST(call_heap(&l, COUNTS, ALL, &out));
    CHECK(out.registered == 2 && out.left == 1 && out.allocs == 2);
    end_life(&l);
}

static void drops_what_has_left(void) {
    life_t l;
    heap_outs_t before, after;
    arrange(&l, ONE_LEFT);
    MUST(call_heap(&l, COUNTS, ALL, &before));
    drop(&l.threads[0]);
    MUST(call_heap(&l, COUNTS, ALL, &after));
    CHECK(memcmp(&before, &after, sizeof before) == 0);
    end_life(&l);
}

static void drops_what_cannot_leave(void) {
    life_t l;
    hold_t h;
    arrange(&l, REFERENCE);
    if (hold_register(&l, &h)) l.closes = BRC_MISSING;
    else not_seen();
    drop(&l.threads[0]);
    let_go(&h);
    end_life(&l);
}

/* A thread on its way out reports its ledger until it has left. */
static void reports_its_ledger(void) {
    life_t l;
    hold_t h;
    uint64_t allocs = 0, frees = 0;
    arrange(&l, OPEN);
    make_dead_list(&l.threads[0]);
    while (brc_work(&l.threads[0], 4096) == 0) { }
    if (hold_register(&l, &h)) {
        expect_heap(&l, LEAVE, ALL, BRC_BUSY);
        MUST(brc_ledger(&l.threads[0], &allocs, &frees));
        CHECK(allocs == 1 && frees == 1);
    } else {
        not_seen();
    }
    let_go(&h);
    leave(&l.threads[0]);
    settle(brc_ledger(&l.threads[0], &allocs, &frees), BRC_GONE);
    end_life(&l);
}

/* A reference to None is kept from the first put on, until the thread leaves. So it has places for 65,535 others. */
static void keeps_a_none(void) {
    life_t l;
    brc_thread *t;
    brc_ref list, more = BRC_NONE, none_more;
    brc_value value;
    arrange(&l, OPEN);
    t = &l.threads[0];
    MUST(brc_new_list(t, &list));
    while (brc_count(t) < REFERENCES - 1) more = none(t);
    MUST(brc_list_push_value(t, list, scalar()));
    CHECK(brc_count(t) == REFERENCES - 1);
    settle(brc_none(t, &none_more), BRC_FRAME_FULL);
    settle(brc_list_pop_value(t, list, &value), BRC_FRAME_FULL);
    MUST(brc_list_get_value(t, list, 0, &value));
    CHECK(is_scalar(&value));
    MUST(brc_release(t, more));
    MUST(brc_list_pop_value(t, list, &value));
    CHECK(is_scalar(&value) && brc_count(t) == REFERENCES - 2);
    MUST(brc_release_all(t));
    CHECK(brc_count(t) == 0);
    while (brc_count(t) < REFERENCES - 1) none(t);
    settle(brc_none(t, &none_more), BRC_FRAME_FULL);
    end_life(&l);
}

/* A thread that keeps a reference to None is dropped, and has left. */
static void drops_a_none(void) {
    life_t l;
    brc_ref list;
    heap_outs_t out;
    arrange(&l, OPEN);
    MUST(brc_new_list(&l.threads[0], &list));
    MUST(brc_list_push_value(&l.threads[0], list, scalar()));
    drop(&l.threads[0]);
    MUST(call_heap(&l, COUNTS, ALL, &out));
    CHECK(out.registered == 2 && out.left == 1 && out.allocs == 1 && out.frees == 1);
    end_life(&l);
}

/* None is a scalar, if it comes out by value, and a scalar is None, if it comes out alone. */
static void mixes_its_calls(void) {
    life_t l;
    brc_thread *t;
    brc_ref list, more;
    brc_value value;
    brc_kind kind;
    arrange(&l, OPEN);
    t = &l.threads[0];
    MUST(brc_new_list(t, &list));
    more = none(t);
    MUST(brc_list_push_value(t, list, brc_of_ref(LABEL, more)));
    settle(brc_release(t, more), BRC_STALE);
    MUST(brc_list_push(t, list, none(t)));
    MUST(brc_list_push_value(t, list, scalar()));
    MUST(brc_list_pop(t, list, &more));
    MUST(brc_kind_of(t, more, &kind));
    CHECK(kind == BRC_NOTHING);
    MUST(brc_list_pop_value(t, list, &value));
    CHECK(value.holds == BRC_SCALAR && value.label == 0 && value.bits == 0);
    MUST(brc_list_pop_value(t, list, &value));
    CHECK(value.holds == BRC_SCALAR && value.label == LABEL && value.bits == 0);
    end_life(&l);
}

/* The values are the list's entries, in their order, and its numbers are spent. */
static void makes_a_list(void) {
    life_t l;
    brc_thread *t;
    brc_ref list, made;
    brc_value values[3], value;
    size_t len;
    uint64_t allocs, frees;
    arrange(&l, OPEN);
    t = &l.threads[0];
    MUST(brc_new_list_of(t, values, 0, &list));
    MUST(brc_len_of(t, list, &len));
    CHECK(len == 0 && brc_count(t) == 1);
    MUST(brc_new_int(t, 1000, &made));
    values[0] = scalar();
    values[1] = brc_of_ref(LABEL, made);
    values[2] = brc_of_ref(LABEL + 1, list);
    MUST(brc_new_list_of(t, values, 3, &list));
    CHECK(brc_count(t) == 1);
    settle(brc_release(t, made), BRC_STALE);
    settle(brc_release(t, values[2].bits), BRC_STALE);
    MUST(brc_list_pop_value(t, list, &value));
    CHECK(value.holds == BRC_REFERENCE && value.label == LABEL + 1);
    MUST(brc_len_of(t, value.bits, &len));
    CHECK(len == 0);
    MUST(brc_list_push_value(t, list, value));
    MUST(brc_list_get_value(t, list, 1, &value));
    CHECK(value.holds == BRC_REFERENCE && value.label == LABEL);
    MUST(brc_list_get_value(t, list, 0, &value));
    CHECK(is_scalar(&value));
    MUST(brc_ledger(t, &allocs, &frees));
    CHECK(allocs == 3 && frees == 0);
    end_life(&l);
}

static void looks_at_pairs(void) {
    life_t l;
    brc_thread *t;
    brc_ref dict, made;
    brc_value value;
    brc_key key;
    uint8_t text[4];
    uint32_t pairs = 0;
    arrange(&l, OPEN);
    t = &l.threads[0];
    MUST(brc_new_dict(t, &dict));
    MUST(brc_new_int(t, 1000, &made));
    MUST(brc_dict_put_int_value(t, dict, -7, scalar(), &value));
    CHECK(value.holds == BRC_NO_VALUE && value.label == 0 && value.bits == 0);
    MUST(brc_dict_put_text_value(t, dict, (const uint8_t *)"a key", 5, brc_of_ref(LABEL, made), &value));
    CHECK(value.holds == BRC_NO_VALUE && value.label == 0 && value.bits == 0);
    MUST(brc_dict_pair_value(t, dict, 0, &key, text, sizeof text, &value, &pairs));
    CHECK(!key.is_text && key.number == -7 && is_scalar(&value) && pairs == 2);
    MUST(brc_dict_pair_value(t, dict, 1, &key, text, sizeof text, &value, &pairs));
    CHECK(key.is_text && key.len == 5 && memcmp(text, "a ke", 4) == 0 && pairs == 2);
    CHECK(value.holds == BRC_REFERENCE && value.label == LABEL);
    MUST(brc_release(t, value.bits));
    settle(brc_dict_pair_value(t, dict, pairs, &key, text, sizeof text, &value, &pairs), BRC_NO_SUCH_PLACE);
    end_life(&l);
}

static void *leaver(void *at) {
    leave(at);
    return NULL;
}

/* The register says that the last thread has left, and its last call runs still. */
static void runs_a_last_call(void) {
    int is_seen = 0;
    for (int i = 0; i < 100 && !is_seen; i++) {
        life_t l;
        heap_outs_t out;
        brc_status s;
        pthread_t machine;
        arrange(&l, OPEN);
        leave(&l.threads[1]);
        CHECK(pthread_create(&machine, NULL, leaver, &l.threads[0]) == 0);
        while ((s = call_heap(&l, COUNTS, ALL, &out)) == BRC_BUSY || (s == BRC_OK && out.left < 2)) sched_yield();
        MUST(s);
        s = call_heap(&l, CLOSE, ALL, &out);
        is_seen = s == BRC_BUSY;
        if (!is_seen) MUST(s);
        CHECK(pthread_join(machine, NULL) == 0);
        end_life(&l);
    }
    if (!is_seen) not_seen();
}

static const struct { const char *name, *what; void (*play)(void); } STEPS[] = {
    {"brc_version", "the library is that of the page", is_of_the_page},
    {"brc_heap_new", "no memory for one of its blocks", opens_with_memory},
    {"brc_heap_close", "a thread is there, and then it leaves", closes_after_a_refusal},
    {"brc_heap_close", "a closed heap is closed again", closes_twice},
    {"brc_heap_close", "no memory, and the calls after it", ends_without_a_report},
    {"brc_heap_close", "a thread's last call runs", runs_a_last_call},
    {"brc_heap_drop", "threads work on without the heap's variable", threads_work_on},
    {"brc_thread_drop", "the thread has references", drops_its_references},
    {"brc_thread_drop", "the thread has left", drops_what_has_left},
    {"brc_thread_drop", "the thread can't leave", drops_what_cannot_leave},
    {"brc_thread_drop", "the thread keeps a reference to None", drops_a_none},
    {"brc_ledger", "the thread is on its way out", reports_its_ledger},
    {"brc_list_push_value", "a reference to None is kept", keeps_a_none},
    {"brc_list_pop_value", "None, and scalars, by both kinds of calls", mixes_its_calls},
    {"brc_new_list_of", "no values, a scalar and references", makes_a_list},
    {"brc_dict_pair_value", "each pair, and how many there are", looks_at_pairs},
};

/* ---- Values that come out, and the places that they want */

/* A call, what makes its container, and what puts an entry there. A call that puts a value has another come out for it. */
static const struct { call_t call; const char *name; call_t makes, puts; } COMINGS[] = {
    {POP_VALUE, "brc_list_pop_value", NEW_LIST, PUSH_VALUE},
    {TAKE_VALUE, "brc_list_take_value", NEW_LIST, PUSH_VALUE},
    {RECV_VALUE, "brc_recv_value", NEW_MAILBOX, SEND_VALUE},
    {DEL_INT_VALUE, "brc_dict_del_int_value", NEW_DICT, PUT_INT_VALUE},
    {DEL_TEXT_VALUE, "brc_dict_del_text_value", NEW_DICT, PUT_TEXT_VALUE},
    {SET_VALUE, "brc_list_set_value", NEW_LIST, PUSH_VALUE},
    {PUT_VALUE, "brc_list_put_value", NEW_LIST, PUT_VALUE},
    {PUT_INT_VALUE, "brc_dict_put_int_value", NEW_DICT, PUT_INT_VALUE},
    {PUT_TEXT_VALUE, "brc_dict_put_text_value", NEW_DICT, PUT_TEXT_VALUE},
    {SWAP_IF, "brc_list_swap_if", NEW_LIST, PUSH_VALUE},
    {SWAP_IF_INT, "brc_dict_swap_if_int", NEW_DICT, PUT_INT_VALUE},
    {SWAP_IF_TEXT, "brc_dict_swap_if_text", NEW_DICT, PUT_TEXT_VALUE},
};

static brc_value stands;        /* what is expected there by a call that asks */

/* The call on the container's first entry: the status, and what it wrote. */
static brc_status come(call_t call, brc_thread *t, brc_ref container, brc_value value, outs_t *out) {
    inputs_t in = {container, value.bits, value.holds, stands, 0, 0, (const uint8_t *)"key", 3};
    memset(out, UNWRITTEN, sizeof *out);
    return make_call(call, t, &in, out);
}

/* A scalar comes out though there is no memory for a place. */
static void comes_without_memory(brc_thread *t, call_t call, brc_ref container) {
    brc_status s;
    brc_ref more;
    outs_t out;
    given = NONE;
    while ((s = brc_none(t, &more)) == BRC_OK) { }
    settle(s, BRC_OUT_OF_MEMORY);
    MUST(come(call, t, container, scalar(), &out));
    given = ALL;
    CHECK(is_scalar(&out.datum));
    MUST(brc_len_of(t, container, &out.len));
    CHECK(out.len == 0);
}

/* With no place left, a reference comes out for another and not for a scalar. If it goes in for a scalar, a place is left. */
static void change_places(brc_thread *t, call_t call, brc_ref container) {
    brc_ref one, more;
    outs_t out;
    int64_t number;
    MUST(brc_new_int(t, 1000, &one));
    while (brc_count(t) < REFERENCES - 1) MUST(brc_retain(t, one, &more));
    stands = scalar();
    MUST(come(call, t, container, scalar(), &out));
    CHECK(is_scalar(&out.datum) && brc_count(t) == REFERENCES - 1);
    MUST(come(call, t, container, brc_of_ref(LABEL, one), &out));
    CHECK(is_scalar(&out.datum) && brc_count(t) == REFERENCES - 2);
    settle(brc_release(t, one), BRC_STALE);
    MUST(brc_retain(t, more, &one));
    stands = brc_of_ref(0, more);
    settle(come(call, t, container, scalar(), &out), BRC_FRAME_FULL);
    MUST(come(call, t, container, brc_of_ref(LABEL, one), &out));
    CHECK(out.datum.holds == BRC_REFERENCE && out.datum.label == LABEL && brc_count(t) == REFERENCES - 1);
    settle(brc_release(t, one), BRC_STALE);
    MUST(brc_int_of(t, out.datum.bits, &number));
    CHECK(number == 1000);
    MUST(brc_release(t, out.datum.bits));
    MUST(come(call, t, container, scalar(), &out));
    CHECK(out.datum.holds == BRC_REFERENCE && out.datum.label == LABEL && brc_count(t) == REFERENCES - 1);
}

static void play_comings(void) {
    for (size_t i = 0; i < sizeof COMINGS / sizeof COMINGS[0]; i++) {
        const call_t call = COMINGS[i].call;
        const int is_change = call == COMINGS[i].puts || call == SET_VALUE || (call >= SWAP_IF && call <= SWAP_IF_TEXT);
        life_t l;
        brc_thread *t;
        brc_ref container;
        outs_t out;
        begin_row(COMINGS[i].name, is_change ? "values change places in a full frame" : "a scalar, and no memory for a place");
        arrange(&l, OPEN);
        t = &l.threads[0];
        MUST(come(COMINGS[i].makes, t, BRC_NONE, scalar(), &out));
        container = out.ref;
        MUST(come(COMINGS[i].puts, t, container, scalar(), &out));
        if (is_change) change_places(t, COMINGS[i].call, container);
        else comes_without_memory(t, COMINGS[i].call, container);
        end_life(&l);
        CHECK(blocks == 0);
    }
}

int main(void) {
    clock_gettime(CLOCK_REALTIME, &deadline);
    deadline.tv_sec += SECONDS;
    build();
    play_all();
    play_puts();
    play_lists();
    play_unlocked();
    play_second_locked();
    take_down();
    play_texts();
    play_sizes();
    for (size_t i = 0; i < sizeof LIVES / sizeof LIVES[0]; i++) play_life(&LIVES[i]);
    for (size_t i = 0; i < sizeof STEPS / sizeof STEPS[0]; i++) {
        begin_row(STEPS[i].name, STEPS[i].what);
        STEPS[i].play();
        CHECK(blocks == 0);
    }
    play_comings();
    begin("main", "each call has a row");
    CHECK(calls == CALLS);
    printf("%d calls, %d rows\n", calls, rows);
    return 0;
}
