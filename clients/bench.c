/* bench: what a call costs, in nanoseconds of the thread's processor time: the best and the median of nine runs.
 *
 *     bench [CALLS]
 *
 * A caller's own loop is in each figure; the first line is an empty call. The lines with "value" are of the calls by values:
 * of a scalar, and of a reference with a label. */
#define _POSIX_C_SOURCE 200809L
#include <stdio.h>
#include <stdlib.h>
#include <time.h>
#include "brc.h"

#define MUST(call)                                                                                    \
    do {                                                                                              \
        brc_status s_ = (call);                                                                       \
        if (s_ != BRC_OK) {                                                                           \
            fprintf(stderr, "bench: line %d: %s\n", __LINE__, brc_status_name(s_));                   \
            exit(1);                                                                                  \
        }                                                                                             \
    } while (0)

enum { RUNS = 9 };

static double now(void) {
    struct timespec t;
    clock_gettime(CLOCK_THREAD_CPUTIME_ID, &t);
    return (double)t.tv_sec * 1e9 + (double)t.tv_nsec;
}

static int by_size(const void *one, const void *other) {
    double a = *(const double *)one, b = *(const double *)other;
    return (a > b) - (a < b);
}

static void show(const char *what, double *runs) {
    qsort(runs, RUNS, sizeof runs[0], by_size);
    printf("%-44s best %8.1f  median %8.1f\n", what, runs[0], runs[RUNS / 2]);
    fflush(stdout);
}

#define TIME(what, count, body)                                                                       \
    do {                                                                                              \
        double runs_[RUNS];                                                                           \
        for (int run_ = 0; run_ < RUNS; run_++) {                                                     \
            double begun_ = now();                                                                    \
            for (uint64_t i_ = 0; i_ < (count); i_++) { body; }                                       \
            runs_[run_] = (now() - begun_) / (double)(count);                                         \
        }                                                                                             \
        show(what, runs_);                                                                            \
    } while (0)

/* Calls by values, on containers that have 16 entries and 8 pairs already. */
static void time_values(brc_thread *t, brc_ref own, uint64_t count) {
    static const uint8_t key[8] = "eight by";
    brc_ref list, dict, box, more;
    brc_value scalar = brc_of_int(1, 1000), value, old;
    MUST(brc_new_list(t, &list));
    MUST(brc_new_dict(t, &dict));
    MUST(brc_new_mailbox(t, &box));
    for (int i = 0; i < 16; i++) MUST(brc_list_push_value(t, list, scalar));
    for (int i = 0; i < 8; i++) MUST(brc_dict_put_int_value(t, dict, i, scalar, &old));
    MUST(brc_dict_put_text_value(t, dict, key, sizeof key, scalar, &old));
    MUST(brc_retain(t, own, &more));
    value = brc_of_ref(1, more);
    TIME("value: list_push + list_pop", count / 4, brc_list_push_value(t, list, scalar); brc_list_pop_value(t, list, &old));
    TIME("value: list_get", count / 4, brc_list_get_value(t, list, 7, &old));
    TIME("value: list_set", count / 4, brc_list_set_value(t, list, 7, scalar, &old));
    TIME("value: list_put at an index that is there", count / 4, brc_list_put_value(t, list, 7, scalar, &old));
    TIME("value: send + recv", count / 4, brc_send_value(t, box, scalar); brc_recv_value(t, box, &old));
    TIME("value: dict_find_int", count / 4, brc_dict_find_int_value(t, dict, 5, &old));
    TIME("value: dict_find_text, 8 bytes", count / 4, brc_dict_find_text_value(t, dict, key, sizeof key, &old));
    TIME("value: dict_put_int, an old key", count / 4, brc_dict_put_int_value(t, dict, 5, scalar, &old));
    TIME("value: list_push + list_pop, a reference", count / 4, brc_list_push_value(t, list, value);
         brc_list_pop_value(t, list, &value));
    MUST(brc_value_clear(t, &value));
    MUST(brc_release(t, box));
    MUST(brc_release(t, dict));
    MUST(brc_release(t, list));
    while (brc_work(t, 64) == 0) { }
}

int main(int argc, char **argv) {
    uint64_t count = argc > 1 ? strtoull(argv[1], NULL, 10) : 2000000, live;
    brc_heap heap;
    brc_thread t, other, third;
    brc_ref own, none, list, dict, globals, foreign, one, old;
    int64_t value;
    uint64_t cycles;
    if (count < 40) count = 40;
    MUST(brc_heap_open(&heap, 4096));
    MUST(brc_thread_open(&heap, &t));
    MUST(brc_thread_open(&heap, &other));
    MUST(brc_new_int(&t, 1000, &own));
    MUST(brc_none(&t, &none));
    MUST(brc_new_list(&t, &list));
    MUST(brc_new_dict(&t, &dict));
    /* the object of `t`, in the hands of the other thread */
    MUST(brc_globals(&t, &globals));
    MUST(brc_retain(&t, own, &one));
    MUST(brc_put(&t, globals, "object", one, &old));
    MUST(brc_release(&t, globals));
    MUST(brc_globals(&other, &globals));
    MUST(brc_find(&other, globals, "object", &foreign));
    MUST(brc_release(&other, globals));

    TIME("brc_version (an empty call)", count, (void)brc_version());
    TIME("refused as FOREIGN", count, brc_retain(&t, 7, &one));
    TIME("refused as STALE", count, brc_release(&t, own + 65536));
    TIME("retain + release, own object", count, brc_retain(&t, own, &one); brc_release(&t, one));
    TIME("retain + release, immortal", count, brc_retain(&t, none, &one); brc_release(&t, one));
    TIME("retain + release, another thread's object", count, brc_retain(&other, foreign, &one); brc_release(&other, one));
    TIME("int_of", count, brc_int_of(&t, own, &value));
    TIME("new_int + release + work(2)", count / 4, MUST(brc_new_int(&t, 1000, &one)); brc_release(&t, one); brc_work(&t, 2));
    TIME("retain + list_push + list_pop + release", count / 4, brc_retain(&t, own, &one); brc_list_push(&t, list, one);
         brc_list_pop(&t, list, &one); brc_release(&t, one));
    MUST(brc_retain(&t, own, &one));
    TIME("list_push + list_pop", count / 4, brc_list_push(&t, list, one); brc_list_pop(&t, list, &one));
    MUST(brc_release(&t, one));
    MUST(brc_retain(&t, own, &one));
    MUST(brc_dict_put_int(&t, dict, 1, one, &old));
    MUST(brc_retain(&t, own, &one));
    MUST(brc_put(&t, dict, "key", one, &old));
    TIME("dict_find_int + release", count / 4, brc_dict_find_int(&t, dict, 1, &one); brc_release(&t, one));
    TIME("dict_find_text + release", count / 4, brc_find(&t, dict, "key", &one); brc_release(&t, one));
    time_values(&t, own, count);
    TIME("poll, nothing asked", count, brc_poll(&t));
    TIME("work, nothing dead", count, brc_work(&t, 64));
    TIME("thread_new + leave + drop", 20, MUST(brc_thread_open(&heap, &third)); brc_thread_leave(&third);
         brc_thread_drop(third));

    brc_thread_drop(other);
    brc_thread_drop(t);
    (void)brc_heap_close(&heap, &live, &cycles);
    brc_heap_drop(heap);
    return 0;
}
