/* values: random programs of values, beside a plain model of what they must do.
 *
 *     values SEED [CALLS [THREADS]]
 *
 * Each thread has lists, dictionaries and mailboxes of its own, and arrays of C that must have the same in them. Values are
 * scalars, and references to a few objects, with labels. Calls with and without `_value` go to one container. Now and then an
 * allocation within a call is refused: then the call answers OUT_OF_MEMORY and changed nothing, or needed no memory. With more
 * than one thread all of them also push to, put into and take from one list and one mailbox, of which the sums are known.
 *
 * At the end each container is read whole, by index and by pair, and taken apart; the heap must count exactly. It is linked with
 *
 *     -Wl,--wrap=malloc,--wrap=realloc
 */
#define _POSIX_C_SOURCE 200809L
#include <inttypes.h>
#include <pthread.h>
#include <sched.h>
#include <stdio.h>
#include <stdlib.h>
#include <string.h>
#define BRC_YIELD() sched_yield()
#include "brc.h"

#define CHECK(fact)                                                                                                        \
    do {                                                                                                                   \
        if (!(fact)) { fprintf(stderr, "values: line %d: not so: %s\n", __LINE__, #fact); abort(); }                       \
    } while (0)
#define MUST(call)                                                                                                         \
    do {                                                                                                                   \
        brc_status s_ = (call);                                                                                            \
        if (s_ != BRC_OK) { fprintf(stderr, "values: line %d: %s: %s\n", __LINE__, #call, brc_status_name(s_)); abort(); } \
    } while (0)

enum { OBJECTS = 6, LISTS = 3, DICTS = 3, BOXES = 2, MOST = 40, KEYS = 24, MOST_THREADS = 8 };

/* ---- Refused allocations: the nth from now, in this thread */

static __thread int refused_in;

void *__real_malloc(size_t size);
void *__real_realloc(void *block, size_t size);
void *__wrap_malloc(size_t size);
void *__wrap_realloc(void *block, size_t size);

void *__wrap_malloc(size_t size) { return refused_in && --refused_in == 0 ? NULL : __real_malloc(size); }

void *__wrap_realloc(void *block, size_t size) { return refused_in && --refused_in == 0 ? NULL : __real_realloc(block, size); }

/* ---- The model */

/* A scalar, or a reference to one of the thread's objects. */
typedef struct { uint64_t bits; uint32_t label; int object; } plain;

typedef struct { plain at[MOST]; int len; } row;
typedef struct { int key[MOST]; plain at[MOST]; int len; } pairs;

typedef struct {
    brc_thread t;
    uint64_t random;
    uint64_t calls;
    brc_ref objects[OBJECTS], lists[LISTS], dicts[DICTS], boxes[BOXES];
    brc_ref common_list, common_box;
    row in_lists[LISTS], in_boxes[BOXES];
    pairs in_dicts[DICTS];
    uint64_t sum;                           /* what this thread put into the common containers, less what it took */
    uint64_t refusals;
} worker;

static brc_heap heap;
static int threads = 1;

static uint64_t draw(worker *w, uint64_t below) {
    w->random ^= w->random << 13;
    w->random ^= w->random >> 7;
    w->random ^= w->random << 17;
    return (w->random >> 11) % below;
}

static plain some_value(worker *w) {
    plain p = { draw(w, 4) ? draw(w, 1u << 20) * 0x9e3779b97f4a7c15u : draw(w, 3), (uint32_t)draw(w, 5) * 1000003u, -1 };
    if (draw(w, 3) == 0) {
        p.object = (int)draw(w, OBJECTS);
        p.bits = 0;
    }
    return p;
}

/* The value of C that stands for it: of an object a reference more, which is the call's if it succeeds. */
static brc_value given(worker *w, plain p) {
    brc_ref more;
    if (p.object < 0) return brc_of_bits(p.label, p.bits);
    MUST(brc_retain(&w->t, w->objects[p.object], &more));
    return brc_of_ref(p.label, more);
}

static int is_object(worker *w, brc_ref ref, int object) {
    uint32_t same = 0;
    MUST(brc_same(&w->t, ref, w->objects[object], &same));
    return (int)same;
}

/* What came out is that, and is let go of. */
static void came(worker *w, brc_value v, plain p) {
    CHECK(v.label == p.label);
    CHECK(v.holds == (p.object < 0 ? BRC_SCALAR : BRC_REFERENCE));
    if (p.object < 0) CHECK(v.bits == p.bits);
    else CHECK(is_object(w, v.bits, p.object));
    MUST(brc_value_clear(&w->t, &v));
}

/* The same of a call without `_value`: of a scalar a reference to None comes. */
static void came_alone(worker *w, brc_ref ref, plain p) {
    brc_kind kind;
    brc_status s;
    if (p.object >= 0) CHECK(is_object(w, ref, p.object));
    else {
        /* None is everybody's */
        BRC_WAIT(&w->t, s, brc_kind_of(&w->t, ref, &kind));
        MUST(s);
        CHECK(kind == BRC_NOTHING);
    }
    MUST(brc_release(&w->t, ref));
}

/* The call was made: or memory was refused, and a value that was given is let go of. */
static int made(worker *w, brc_status s, brc_value *v) {
    refused_in = 0;
    if (s == BRC_OUT_OF_MEMORY) {
        w->refusals++;
        if (v) MUST(brc_value_clear(&w->t, v));
        return 0;
    }
    if (s != BRC_OK) fprintf(stderr, "values: %s\n", brc_status_name(s));
    CHECK(s == BRC_OK);
    return 1;
}

static plain cut(row *r, int i) {
    plain p = r->at[i];
    memmove(r->at + i, r->at + i + 1, sizeof(plain) * (size_t)(r->len - i - 1));
    r->len--;
    return p;
}

/* What is expected where this stands: mostly that, and of an object under any label. */
static plain expected(worker *w, plain there) {
    plain p = some_value(w);
    if (draw(w, 3) == 0) return p;
    if (there.object >= 0) there.label = p.label;
    return there;
}

/* Whether it was swapped is the model's, and so is what came. Returns what stands there then. */
static plain exchanged(worker *w, uint32_t swapped, brc_value v, plain there, plain e, plain p) {
    const int is_still = there.object >= 0 ? e.object == there.object
                                           : e.object < 0 && e.bits == there.bits && e.label == there.label;
    CHECK(swapped == (uint32_t)is_still);
    came(w, v, is_still ? there : p);
    return is_still ? p : there;
}

/* ---- One call on a list, a mailbox and a dictionary */

static void on_list(worker *w) {
    int which = (int)draw(w, LISTS), i;
    row *r = &w->in_lists[which];
    brc_ref list = w->lists[which], ref = BRC_NONE, was = BRC_NONE;
    brc_value v = { 7, 7, 7 }, old = { 9, 9, 9 };
    plain p = some_value(w);
    i = r->len ? (int)draw(w, (uint64_t)r->len) : 0;
    switch (r->len == 0 ? 0 : r->len == MOST ? 3 + draw(w, 2) : draw(w, 11)) {
    case 0:
        v = given(w, p);
        if (made(w, brc_list_push_value(&w->t, list, v), &v)) r->at[r->len++] = p;
        break;
    case 1:
        v = given(w, p);
        if (!made(w, brc_list_put_value(&w->t, list, (uint32_t)r->len, v, &old), &v)) break;
        CHECK(old.holds == BRC_NO_VALUE);
        r->at[r->len++] = p;
        break;
    case 2:
        if (p.object < 0) break;
        v = given(w, p);
        if (!made(w, brc_list_push(&w->t, list, v.bits), &v)) break;
        p.label = 0;
        r->at[r->len++] = p;
        break;
    case 3:
        if (made(w, brc_list_pop_value(&w->t, list, &v), NULL)) came(w, v, cut(r, r->len - 1));
        break;
    case 4:
        if (made(w, brc_list_take_value(&w->t, list, (uint32_t)i, &v), NULL)) came(w, v, cut(r, i));
        break;
    case 5:
        if (made(w, brc_list_get_value(&w->t, list, (uint32_t)i, &v), NULL)) came(w, v, r->at[i]);
        break;
    case 6:
        /* one variable for both */
        v = given(w, p);
        if (!made(w, brc_list_set_value(&w->t, list, (uint32_t)i, v, &v), &v)) break;
        came(w, v, r->at[i]);
        r->at[i] = p;
        break;
    case 7:
        v = given(w, p);
        if (!made(w, brc_list_put_value(&w->t, list, (uint32_t)i, v, &old), &v)) break;
        came(w, old, r->at[i]);
        r->at[i] = p;
        break;
    case 8:
    case 9: {
        const plain there = r->at[i], e = expected(w, there);
        brc_value wanted = given(w, e);
        uint32_t swapped = 7;
        v = given(w, p);
        if (made(w, brc_list_swap_if(&w->t, list, (uint32_t)i, wanted, &v, &swapped), &v))
            r->at[i] = exchanged(w, swapped, v, there, e, p);
        MUST(brc_value_clear(&w->t, &wanted));
        break;
    }
    default:
        if (draw(w, 2)) {
            if (made(w, brc_list_get(&w->t, list, (uint32_t)i, &ref), NULL)) came_alone(w, ref, r->at[i]);
            break;
        }
        if (p.object < 0) break;
        v = given(w, p);
        if (!made(w, brc_list_set(&w->t, list, (uint32_t)i, v.bits, &was), &v)) break;
        came_alone(w, was, r->at[i]);
        p.label = 0;
        r->at[i] = p;
    }
}

/* One of the lists goes, and a list of other values takes its place. A refusal leaves each value, so that is let go of. */
static void on_new_list(worker *w) {
    int which = (int)draw(w, LISTS), n = (int)draw(w, 9), refused = refused_in, twice = -1;
    row r = { .len = n };
    brc_value values[9];
    brc_ref list = BRC_NONE;
    brc_status s;
    refused_in = 0;
    for (int i = 0; i < n; i++) values[i] = given(w, r.at[i] = some_value(w));
    if (n > 1 && r.at[0].object >= 0 && draw(w, 4) == 0) {
        twice = 1 + (int)draw(w, (uint64_t)n - 1);
        MUST(brc_value_clear(&w->t, &values[twice]));
        values[twice] = values[0];
    }
    refused_in = refused;
    s = brc_new_list_of(&w->t, values, (size_t)n, &list);
    refused_in = 0;
    if (twice >= 0) {
        CHECK(s == BRC_SAME);
        values[twice].holds = BRC_NO_VALUE;
    }
    if (s == BRC_SAME || !made(w, s, NULL)) {
        CHECK(list == BRC_NONE);
        for (int i = 0; i < n; i++) MUST(brc_value_clear(&w->t, &values[i]));
        return;
    }
    for (int i = 0; i < n; i++) CHECK(values[i].holds != BRC_REFERENCE || brc_release(&w->t, values[i].bits) == BRC_STALE);
    MUST(brc_release(&w->t, w->lists[which]));
    w->lists[which] = list;
    w->in_lists[which] = r;
}

static void on_mailbox(worker *w) {
    int which = (int)draw(w, BOXES);
    row *r = &w->in_boxes[which];
    brc_ref box = w->boxes[which];
    brc_value v = { 7, 7, 7 };
    plain p = some_value(w);
    if (r->len == 0 || (r->len < MOST && draw(w, 2))) {
        v = given(w, p);
        if (made(w, brc_send_value(&w->t, box, v), &v)) r->at[r->len++] = p;
        return;
    }
    if (made(w, brc_recv_value(&w->t, box, &v), NULL)) came(w, v, cut(r, 0));
}

static brc_status put_by(worker *w, brc_ref dict, int key, brc_value v, brc_value *old) {
    char text[32];
    if (key % 2) return brc_dict_put_int_value(&w->t, dict, key - 12, v, old);
    snprintf(text, sizeof text, "key %d", key);
    if (draw(w, 2)) return brc_dict_put_bytes_value(&w->t, dict, (const uint8_t *)text, strlen(text), v, old);
    return brc_dict_put_text_value(&w->t, dict, (const uint8_t *)text, strlen(text), v, old);
}

static brc_status put_new_by(worker *w, brc_ref dict, int key, brc_value v, brc_value *back) {
    char text[32];
    if (key % 2) return brc_dict_put_new_int_value(&w->t, dict, key - 12, v, back);
    snprintf(text, sizeof text, "key %d", key);
    return brc_dict_put_new_text_value(&w->t, dict, (const uint8_t *)text, strlen(text), v, back);
}

static brc_status swap_if_by(worker *w, brc_ref dict, int key, brc_value wanted, brc_value *v, uint32_t *swapped) {
    char text[32];
    if (key % 2) return brc_dict_swap_if_int(&w->t, dict, key - 12, wanted, v, swapped);
    snprintf(text, sizeof text, "key %d", key);
    return brc_dict_swap_if_text(&w->t, dict, (const uint8_t *)text, strlen(text), wanted, v, swapped);
}

static brc_status find_by(worker *w, brc_ref dict, int key, brc_value *v) {
    char text[32];
    if (key % 2) return brc_dict_find_int_value(&w->t, dict, key - 12, v);
    snprintf(text, sizeof text, "key %d", key);
    if (draw(w, 2)) return brc_dict_find_bytes_value(&w->t, dict, (const uint8_t *)text, strlen(text), v);
    return brc_dict_find_text_value(&w->t, dict, (const uint8_t *)text, strlen(text), v);
}

static brc_status del_by(worker *w, brc_ref dict, int key, brc_value *v) {
    char text[32];
    if (key % 2) return brc_dict_del_int_value(&w->t, dict, key - 12, v);
    snprintf(text, sizeof text, "key %d", key);
    if (draw(w, 2)) return brc_dict_del_bytes_value(&w->t, dict, (const uint8_t *)text, strlen(text), v);
    return brc_dict_del_text_value(&w->t, dict, (const uint8_t *)text, strlen(text), v);
}

/* Whether and where the key is there is the model's; of -1 it isn't. No memory is wanted. */
static void look_for_key(worker *w, brc_ref dict, int key, int i) {
    uint32_t has = 7, place = 7;
    char text[32];
    brc_status s;
    if (key % 2) {
        MUST(brc_dict_has_int(&w->t, dict, key - 12, &has));
        s = brc_dict_place_int(&w->t, dict, key - 12, &place);
    } else {
        snprintf(text, sizeof text, "key %d", key);
        MUST(brc_dict_has_text(&w->t, dict, (const uint8_t *)text, strlen(text), &has));
        s = brc_dict_place_text(&w->t, dict, (const uint8_t *)text, strlen(text), &place);
    }
    CHECK(has == (i >= 0));
    if (i < 0) CHECK(s == BRC_NO_SUCH_KEY && place == 7);
    else CHECK(s == BRC_OK && place == (uint32_t)i);
}

/* The pair at the index is the model's. */
static void look_at_pair(worker *w, brc_ref dict, pairs *d, int i) {
    brc_key key;
    uint8_t to[32] = { 0 };
    char text[32];
    brc_value v;
    uint32_t len = 0;
    if (!made(w, brc_dict_pair_value(&w->t, dict, (uint32_t)i, &key, to, sizeof to, &v, &len), NULL)) return;
    CHECK(len == (uint32_t)d->len);
    CHECK(key.is_text == (d->key[i] % 2 == 0));
    if (key.is_text) {
        snprintf(text, sizeof text, "key %d", d->key[i]);
        CHECK(key.len == strlen(text) && memcmp(to, text, key.len) == 0);
    } else CHECK(key.number == d->key[i] - 12);
    came(w, v, d->at[i]);
}

static void on_dict(worker *w) {
    int which = (int)draw(w, DICTS), key = (int)draw(w, KEYS), i;
    pairs *d = &w->in_dicts[which];
    brc_ref dict = w->dicts[which];
    brc_value v = { 7, 7, 7 }, old = { 9, 9, 9 };
    plain p = some_value(w);
    brc_status s;
    for (i = 0; i < d->len && d->key[i] != key; i++) { }
    switch (draw(w, 9)) {
    case 6:
        v = given(w, p);
        if (!made(w, put_new_by(w, dict, key, v, &old), &v)) return;
        if (i < d->len) {
            came(w, old, p);
            return;
        }
        CHECK(old.holds == BRC_NO_VALUE);
        d->key[d->len++] = key;
        d->at[i] = p;
        return;
    case 7:
    case 8: {
        const plain there = i < d->len ? d->at[i] : p, e = expected(w, there);
        brc_value wanted = given(w, e);
        uint32_t swapped = 7;
        v = given(w, p);
        s = swap_if_by(w, dict, key, wanted, &v, &swapped);
        if (i == d->len) {
            CHECK((s == BRC_NO_SUCH_KEY || s == BRC_OUT_OF_MEMORY) && swapped == 7);
            MUST(brc_value_clear(&w->t, &v));
        } else if (made(w, s, &v)) d->at[i] = exchanged(w, swapped, v, there, e, p);
        MUST(brc_value_clear(&w->t, &wanted));
        return;
    }
    case 0:
    case 1:
        v = given(w, p);
        if (!made(w, put_by(w, dict, key, v, &old), &v)) return;
        if (i < d->len) came(w, old, d->at[i]);
        else {
            CHECK(old.holds == BRC_NO_VALUE);
            d->key[d->len++] = key;
        }
        d->at[i] = p;
        return;
    case 2:
        s = find_by(w, dict, key, &v);
        if (i == d->len) CHECK(s == BRC_NO_SUCH_KEY && v.holds == 7);
        else if (made(w, s, NULL)) came(w, v, d->at[i]);
        return;
    case 3:
        s = del_by(w, dict, key, &v);
        if (i == d->len) {
            CHECK(s == BRC_NO_SUCH_KEY && v.holds == 7);
            return;
        }
        if (!made(w, s, NULL)) return;
        came(w, v, d->at[i]);
        memmove(d->key + i, d->key + i + 1, sizeof(int) * (size_t)(d->len - i - 1));
        memmove(d->at + i, d->at + i + 1, sizeof(plain) * (size_t)(d->len - i - 1));
        d->len--;
        return;
    case 4: look_for_key(w, dict, key, i < d->len ? i : -1); return;
    default:
        if (d->len) look_at_pair(w, dict, d, (int)draw(w, (uint64_t)d->len));
    }
}

/* The common list and mailbox: each thread puts scalars in and takes some out. */
static void on_common(worker *w) {
    brc_value v, old;
    brc_status s;
    size_t len = 0;
    uint32_t swapped;
    uint64_t number = draw(w, 1u << 30);
    switch (draw(w, 5)) {
    case 0:
        BRC_WAIT(&w->t, s, brc_send_value(&w->t, w->common_box, brc_of_bits(1, number)));
        if (made(w, s, NULL)) w->sum += number;
        return;
    case 1:
        BRC_WAIT(&w->t, s, brc_recv_value(&w->t, w->common_box, &v));
        if (s == BRC_NO_SUCH_PLACE) return;
        if (made(w, s, NULL)) w->sum -= v.bits;
        return;
    case 2:
        /* at the end as it was seen: another thread may have put there, or taken, since */
        BRC_WAIT(&w->t, s, brc_len_of(&w->t, w->common_list, &len));
        MUST(s);
        BRC_WAIT(&w->t, s, brc_list_put_value(&w->t, w->common_list, (uint32_t)len, brc_of_bits(1, number), &old));
        if (s == BRC_NO_SUCH_PLACE) return;
        if (!made(w, s, NULL)) return;
        w->sum += number;
        if (old.holds == BRC_SCALAR) w->sum -= old.bits;
        return;
    case 3:
        /* the first is raised, unless another thread has raised or taken it since it was seen */
        BRC_WAIT(&w->t, s, brc_list_get_value(&w->t, w->common_list, 0, &old));
        if (s == BRC_NO_SUCH_PLACE) return;
        if (!made(w, s, NULL)) return;
        v = brc_of_bits(1, old.bits + number);
        BRC_WAIT(&w->t, s, brc_list_swap_if(&w->t, w->common_list, 0, old, &v, &swapped));
        if (s == BRC_NO_SUCH_PLACE) return;
        if (!made(w, s, NULL)) return;
        if (swapped) w->sum += number;
        return;
    default:
        BRC_WAIT(&w->t, s, brc_list_pop_value(&w->t, w->common_list, &v));
        if (s == BRC_NO_SUCH_PLACE) return;
        if (made(w, s, NULL)) w->sum -= v.bits;
    }
}

/* ---- A thread's life */

static void begin(worker *w) {
    brc_ref globals;
    brc_status s;
    int i;
    BRC_WAIT_HEAP(s, brc_thread_open(&heap, &w->t));
    MUST(s);
    for (i = 0; i < OBJECTS; i++) MUST(brc_new_list(&w->t, &w->objects[i]));
    for (i = 0; i < LISTS; i++) MUST(brc_new_list(&w->t, &w->lists[i]));
    for (i = 0; i < DICTS; i++) MUST(brc_new_dict(&w->t, &w->dicts[i]));
    for (i = 0; i < BOXES; i++) MUST(brc_new_mailbox(&w->t, &w->boxes[i]));
    MUST(brc_globals(&w->t, &globals));
    BRC_WAIT(&w->t, s, brc_find(&w->t, globals, "list", &w->common_list));
    MUST(s);
    BRC_WAIT(&w->t, s, brc_find(&w->t, globals, "box", &w->common_box));
    MUST(s);
    MUST(brc_release(&w->t, globals));
}

/* Every container is what the model says, and is emptied. */
static void end(worker *w) {
    brc_value v;
    size_t len;
    int i, j;
    brc_status s;
    for (i = 0; i < LISTS; i++) {
        MUST(brc_len_of(&w->t, w->lists[i], &len));
        CHECK(len == (size_t)w->in_lists[i].len);
        for (j = 0; j < w->in_lists[i].len; j++) {
            MUST(brc_list_get_value(&w->t, w->lists[i], (uint32_t)j, &v));
            came(w, v, w->in_lists[i].at[j]);
        }
        MUST(brc_release(&w->t, w->lists[i]));
    }
    for (i = 0; i < BOXES; i++) {
        for (j = 0; j < w->in_boxes[i].len; j++) {
            MUST(brc_recv_value(&w->t, w->boxes[i], &v));
            came(w, v, w->in_boxes[i].at[j]);
        }
        CHECK(brc_recv_value(&w->t, w->boxes[i], &v) == BRC_NO_SUCH_PLACE);
        MUST(brc_release(&w->t, w->boxes[i]));
    }
    for (i = 0; i < DICTS; i++) {
        for (j = 0; j < w->in_dicts[i].len; j++) look_at_pair(w, w->dicts[i], &w->in_dicts[i], j);
        MUST(brc_release(&w->t, w->dicts[i]));
    }
    for (i = 0; i < OBJECTS; i++) MUST(brc_release(&w->t, w->objects[i]));
    MUST(brc_release(&w->t, w->common_list));
    MUST(brc_release(&w->t, w->common_box));
    CHECK(brc_count(&w->t) == 0);
    do {
        (void)brc_poll(&w->t);
        while (brc_work(&w->t, 4096) == 0) { }
        s = brc_thread_leave(&w->t);
        if (s == BRC_BUSY) BRC_YIELD();
    } while (s == BRC_BUSY);
    MUST(s);
}

static void *live(void *of) {
    worker *w = of;
    begin(w);
    for (uint64_t i = 0; i < w->calls; i++) {
        if (draw(w, 16) == 0) refused_in = 1 + (int)draw(w, 2);
        switch (draw(w, threads > 1 ? 9 : 8)) {
        case 0: case 1: case 2: on_list(w); break;
        case 3: on_mailbox(w); break;
        case 4: case 5: case 6: on_dict(w); break;
        case 7: on_new_list(w); break;
        default: on_common(w);
        }
        refused_in = 0;
        if (i % 64 == 0) {
            (void)brc_poll(&w->t);
            (void)brc_work(&w->t, 64);
        }
    }
    end(w);
    return NULL;
}

int main(int argc, char **argv) {
    static worker workers[MOST_THREADS], root;
    pthread_t ids[MOST_THREADS];
    uint64_t seed = argc > 1 ? strtoull(argv[1], NULL, 10) : 1, calls = argc > 2 ? strtoull(argv[2], NULL, 10) : 100000;
    uint64_t sum = 0, refusals = 0, allocs, frees;
    uint32_t registered, left;
    brc_ref globals, old, list, box;
    brc_value v;
    if (argc > 3) threads = atoi(argv[3]);
    CHECK(threads >= 1 && threads <= MOST_THREADS);
    MUST(brc_heap_open(&heap, 4096));
    MUST(brc_thread_open(&heap, &root.t));
    MUST(brc_globals(&root.t, &globals));
    MUST(brc_new_list(&root.t, &list));
    MUST(brc_put(&root.t, globals, "list", list, &old));
    MUST(brc_new_mailbox(&root.t, &box));
    MUST(brc_put(&root.t, globals, "box", box, &old));
    for (int i = 0; i < threads; i++) {
        workers[i].random = seed * 0x9e3779b97f4a7c15u + (uint64_t)i * 0xbf58476d1ce4e5b9u + 1;
        workers[i].calls = calls / (uint64_t)threads;
        CHECK(pthread_create(&ids[i], NULL, live, &workers[i]) == 0);
    }
    for (int i = 0; i < threads; i++) {
        CHECK(pthread_join(ids[i], NULL) == 0);
        brc_thread_drop(workers[i].t);
        sum += workers[i].sum;
        refusals += workers[i].refusals;
    }
    MUST(brc_find(&root.t, globals, "list", &list));
    MUST(brc_find(&root.t, globals, "box", &box));
    while (brc_list_pop_value(&root.t, list, &v) == BRC_OK) sum -= v.bits;
    while (brc_recv_value(&root.t, box, &v) == BRC_OK) sum -= v.bits;
    CHECK(sum == 0);
    MUST(brc_release(&root.t, list));
    MUST(brc_release(&root.t, box));
    MUST(brc_del(&root.t, globals, "list", &list));
    MUST(brc_release(&root.t, list));
    MUST(brc_del(&root.t, globals, "box", &box));
    MUST(brc_release(&root.t, box));
    MUST(brc_release(&root.t, globals));
    (void)brc_poll(&root.t);
    while (brc_work(&root.t, 4096) == 0) { }
    MUST(brc_thread_leave(&root.t));
    MUST(brc_heap_counts(&heap, &registered, &left, &allocs, &frees));
    CHECK(registered == left && allocs == frees);
    brc_thread_drop(root.t);
    brc_heap_drop(heap);
    printf("values: seed %" PRIu64 ", %" PRIu64 " calls on %d threads, %" PRIu64 " refused: as the model has it; %" PRIu64
           " objects made, and as many freed\n", seed, calls, threads, refusals, allocs);
    return 0;
}
