/* limits: each limit of brc.h is met, and then refused by its name.
 *
 * 65,536 references of a thread, 1,048,576 entries of a container, 64 threads at a time, and 65,536 registrations in a heap's
 * life. After each refusal something is given back, and the same call passes. At the end nothing is left. */
#include <stdio.h>
#include <stdlib.h>
#include "brc.h"

#define CHECK(fact)                                                                                   \
    do {                                                                                              \
        if (!(fact)) {                                                                                \
            fprintf(stderr, "limits: line %d: not so: %s\n", __LINE__, #fact);                        \
            exit(1);                                                                                  \
        }                                                                                             \
    } while (0)

enum { REFERENCES = 65536, ENTRIES = 1048576, THREADS = 64, REGISTRATIONS = 65536 };

/* A thread has so many references, and one more once it has released one. */
static void fill_the_frame(brc_thread *t) {
    brc_ref one, more = BRC_NONE, last = BRC_NONE;
    CHECK(brc_new_int(t, 1000, &one) == BRC_OK);
    for (int i = 1; i < REFERENCES; i++) CHECK(brc_retain(t, one, &last) == BRC_OK);
    CHECK(brc_count(t) == REFERENCES);
    CHECK(brc_retain(t, one, &more) == BRC_FRAME_FULL && more == BRC_NONE);
    CHECK(brc_new_int(t, 1000, &more) == BRC_FRAME_FULL && brc_none(t, &more) == BRC_FRAME_FULL);
    CHECK(brc_release(t, last) == BRC_OK);
    CHECK(brc_retain(t, one, &more) == BRC_OK && more != last);
    CHECK(brc_release(t, last) == BRC_STALE);
    CHECK(brc_release_all(t) == BRC_OK && brc_count(t) == 0 && brc_release(t, one) == BRC_STALE);
    /* The numbers of before name nothing, though each place has a reference again. */
    CHECK(brc_new_int(t, 1000, &more) == BRC_OK && more != one);
    for (int i = 1; i < REFERENCES; i++) CHECK(brc_retain(t, more, &last) == BRC_OK && last != one);
    CHECK(brc_release(t, one) == BRC_STALE && brc_release_all(t) == BRC_OK);
}

/* A container of each kind has so many entries. The last one is refused, and is still the caller's. */
static void fill_the_containers(brc_thread *t) {
    brc_ref list, mailbox, dict, more, old;
    size_t len;
    CHECK(brc_new_list(t, &list) == BRC_OK && brc_new_mailbox(t, &mailbox) == BRC_OK && brc_new_dict(t, &dict) == BRC_OK);
    for (int i = 0; i < ENTRIES; i++) {
        CHECK(brc_none(t, &more) == BRC_OK && brc_list_push(t, list, more) == BRC_OK);
        CHECK(brc_none(t, &more) == BRC_OK && brc_send(t, mailbox, more) == BRC_OK);
        CHECK(brc_none(t, &more) == BRC_OK && brc_dict_put_int(t, dict, i, more, &old) == BRC_OK && old == BRC_NONE);
    }
    CHECK(brc_none(t, &more) == BRC_OK);
    CHECK(brc_list_push(t, list, more) == BRC_FULL && brc_send(t, mailbox, more) == BRC_FULL);
    CHECK(brc_dict_put_int(t, dict, ENTRIES, more, &old) == BRC_FULL);
    CHECK(brc_dict_put_int(t, dict, 0, more, &old) == BRC_OK && old != BRC_NONE);
    CHECK(brc_len_of(t, list, &len) == BRC_OK && len == ENTRIES && brc_len_of(t, dict, &len) == BRC_OK && len == ENTRIES);
    CHECK(brc_list_pop(t, list, &more) == BRC_OK && brc_list_push(t, list, more) == BRC_OK);
    CHECK(brc_release_all(t) == BRC_OK);
    while (brc_work(t, 4096) == 0) { }
}

/* A list has so many scalars, too. They take no object and no reference, but for one to None, which isn't counted. */
static void fill_with_scalars(brc_thread *t) {
    brc_ref list;
    brc_value value;
    uint64_t had_allocs, had_frees, allocs, frees;
    CHECK(brc_new_list(t, &list) == BRC_OK && brc_ledger(t, &had_allocs, &had_frees) == BRC_OK);
    for (int i = 0; i < ENTRIES; i++) CHECK(brc_list_push_value(t, list, brc_of_int(1, i)) == BRC_OK);
    CHECK(brc_list_push_value(t, list, brc_of_int(1, ENTRIES)) == BRC_FULL);
    CHECK(brc_list_put_value(t, list, ENTRIES, brc_of_int(1, ENTRIES), &value) == BRC_FULL);
    CHECK(brc_list_pop_value(t, list, &value) == BRC_OK && brc_int_in(value) == ENTRIES - 1);
    CHECK(brc_list_push_value(t, list, brc_of_int(1, ENTRIES)) == BRC_OK);
    CHECK(brc_list_push_value(t, list, brc_of_int(1, ENTRIES)) == BRC_FULL);
    CHECK(brc_ledger(t, &allocs, &frees) == BRC_OK && allocs == had_allocs && frees == had_frees && brc_count(t) == 1);
    CHECK(brc_release(t, list) == BRC_OK);
    while (brc_work(t, 4096) == 0) { }
}

/* A list is made with so many values, and with no more. Of 65,535 references each is found to stand once. */
static void make_with_values(brc_thread *t) {
    static brc_value values[ENTRIES + 1];
    brc_ref list = BRC_NONE, one, more;
    size_t len;
    for (int i = 0; i <= ENTRIES; i++) values[i] = brc_of_int(1, i);
    CHECK(brc_new_list_of(t, values, ENTRIES + 1, &list) == BRC_FULL && list == BRC_NONE);
    CHECK(brc_new_list_of(t, values, ENTRIES, &list) == BRC_OK && brc_len_of(t, list, &len) == BRC_OK && len == ENTRIES);
    CHECK(brc_list_push_value(t, list, values[0]) == BRC_FULL);
    CHECK(brc_list_get_value(t, list, ENTRIES - 1, &values[0]) == BRC_OK && brc_int_in(values[0]) == ENTRIES - 1);
    CHECK(brc_release(t, list) == BRC_OK);
    CHECK(brc_new_int(t, 1000, &one) == BRC_OK);
    for (int i = 0; i < REFERENCES - 2; i++) {
        CHECK(brc_retain(t, one, &more) == BRC_OK);
        values[i] = brc_of_ref(1, more);
    }
    CHECK(brc_new_list_of(t, values, REFERENCES - 2, &more) == BRC_FRAME_FULL);
    CHECK(brc_release(t, one) == BRC_OK);
    values[REFERENCES - 2] = values[REFERENCES / 2];
    CHECK(brc_new_list_of(t, values, REFERENCES - 1, &list) == BRC_SAME);
    CHECK(brc_new_list_of(t, values, REFERENCES - 2, &list) == BRC_OK && brc_count(t) == 1);
    CHECK(brc_release(t, values[0].bits) == BRC_STALE && brc_release(t, list) == BRC_OK);
    while (brc_work(t, 4096) == 0) { }
}

/* So many threads are registered at a time, and so many in the heap's life. */
static void register_all(brc_heap *heap, uint32_t registered) {
    brc_thread threads[THREADS], one;
    brc_ref held;
    for (int i = 0; i < THREADS; i++, registered++) CHECK(brc_thread_open(heap, &threads[i]) == BRC_OK);
    CHECK(brc_thread_open(heap, &one) == BRC_TOO_MANY_THREADS);
    CHECK(brc_thread_fork(&threads[0], &one.at) == BRC_TOO_MANY_THREADS);
    for (int i = 0; i < THREADS; i++) {
        CHECK(brc_thread_leave(&threads[i]) == BRC_OK && brc_thread_leave(&threads[i]) == BRC_GONE);
        CHECK(brc_none(&threads[i], &held) == BRC_GONE && brc_thread_fork(&threads[i], &one.at) == BRC_GONE);
        brc_thread_drop(threads[i]);
    }
    for (; registered < REGISTRATIONS; registered++) {
        CHECK(brc_thread_open(heap, &one) == BRC_OK);
        brc_thread_drop(one);
    }
    CHECK(brc_thread_open(heap, &one) == BRC_TOO_MANY_THREADS);
}

int main(void) {
    brc_heap heap;
    brc_thread t;
    uint64_t allocs, frees, live, cycles;
    uint32_t registered, left;
    size_t len;
    uint8_t text[64];
    CHECK(brc_heap_open(&heap, 512) == BRC_OK);
    CHECK(brc_heap_report(&heap, 0, text, sizeof text, &len) == BRC_NOT_IDLE);
    CHECK(brc_thread_open(&heap, &t) == BRC_OK);
    fill_the_frame(&t);
    fill_the_containers(&t);
    fill_with_scalars(&t);
    make_with_values(&t);
    CHECK(brc_heap_close(&heap, &live, &cycles) == BRC_MISSING);
    CHECK(brc_thread_leave(&t) == BRC_OK);
    brc_thread_drop(t);
    register_all(&heap, 1);
    CHECK(brc_heap_counts(&heap, &registered, &left, &allocs, &frees) == BRC_OK);
    CHECK(registered == REGISTRATIONS && left == REGISTRATIONS && allocs == 9 && frees == 9);
    CHECK(brc_heap_close(&heap, &live, &cycles) == BRC_OK && live == 0 && cycles == 0);
    CHECK(brc_heap_close(&heap, &live, &cycles) == BRC_OK && brc_thread_open(&heap, &t) == BRC_GONE);
    CHECK(brc_heap_report(&heap, 0, text, sizeof text, &len) == BRC_OK && len == 13 && !memcmp(text, "ledger 9 9 0\n", 13));
    brc_heap_drop(heap);
    printf("%d references, %d entries, %d threads, %d registrations\n", REFERENCES, ENTRIES, THREADS, REGISTRATIONS);
    return 0;
}
