/* counts: makes one kind of call TURNS times, for a program that counts instructions.
 *
 *     counts NAME TURNS
 *
 * What a turn takes is the difference of two runs by that of their TURNS; `.ci/c` counts so, by callgrind, over the library
 * that is proved and over the one that isn't, and holds each against `clients/counts.most`. The containers have 16 entries and 9
 * pairs, and what goes in and comes out are scalars, where the name doesn't say else. A list of 3 is released and freed, too. */
#include <stdio.h>
#include <stdlib.h>
#include <string.h>
#include "brc.h"

#define MUST(call)                                                                                    \
    do {                                                                                              \
        brc_status s_ = (call);                                                                       \
        if (s_ != BRC_OK) {                                                                           \
            fprintf(stderr, "counts: line %d: %s\n", __LINE__, brc_status_name(s_));                  \
            exit(1);                                                                                  \
        }                                                                                             \
    } while (0)

/* The first turn is looked at; the others are the bare calls. */
#define ONE(name, call)                                                                               \
    if (strcmp(what, name) == 0) {                                                                    \
        MUST(call);                                                                                   \
        for (unsigned long i_ = 1; i_ < turns; i_++) (void)(call);                                    \
        return 1;                                                                                     \
    }

#define TWO(name, first, second)                                                                      \
    if (strcmp(what, name) == 0) {                                                                    \
        MUST(first);                                                                                  \
        MUST(second);                                                                                 \
        for (unsigned long i_ = 1; i_ < turns; i_++) {                                                \
            (void)(first);                                                                            \
            (void)(second);                                                                           \
        }                                                                                             \
        return 1;                                                                                     \
    }

static const uint8_t key[8] = "eight by";

typedef struct {
    brc_thread *t;
    brc_ref list, dict, box, ref, count;
} Made;

/* A list of three scalars is made, released and freed. */
static brc_status list_of_3(brc_thread *t, const brc_value *three) {
    brc_ref made;
    brc_status s = brc_new_list_of(t, three, 3, &made);
    if (s == BRC_OK) s = brc_release(t, made);
    (void)brc_work(t, 64);
    return s;
}

static int turn(const char *what, unsigned long turns, Made *made) {
    brc_thread *t = made->t;
    brc_ref list = made->list, dict = made->dict, box = made->box, ref = made->ref;
    brc_value scalar = brc_of_int(1, 1000), three[] = {scalar, scalar, scalar}, old;
    if (strcmp(what, "nothing") == 0) {
        for (unsigned long i_ = 1; i_ < turns; i_++) __asm__ volatile("" ::: "memory");
        return 1;
    }
    ONE("get", brc_list_get_value(t, list, 7, &old))
    ONE("set", brc_list_set_value(t, list, 7, scalar, &old))
    ONE("put", brc_list_put_value(t, list, 7, scalar, &old))
    TWO("push-pop", brc_list_push_value(t, list, scalar), brc_list_pop_value(t, list, &old))
    TWO("send-recv", brc_send_value(t, box, scalar), brc_recv_value(t, box, &old))
    ONE("find-int", brc_dict_find_int_value(t, dict, 5, &old))
    ONE("find-text", brc_dict_find_text_value(t, dict, key, sizeof key, &old))
    if (strcmp(what, "swap-if") == 0) {
        /* the count is raised in each turn, by what a thread expects that looked before */
        for (unsigned long i_ = 0; i_ < turns; i_++) {
            brc_value more = brc_of_int(1, (int64_t)i_ + 1);
            uint32_t swapped = 0;
            brc_status came = brc_list_swap_if(t, made->count, 0, brc_of_int(1, (int64_t)i_), &more, &swapped);
            if (i_ == 0 && (came != BRC_OK || !swapped)) exit(1);
        }
        return 1;
    }
    ONE("put-new", brc_dict_put_new_int_value(t, dict, 5, scalar, &old))
    ONE("put-int", brc_dict_put_int_value(t, dict, 5, scalar, &old))
    TWO("push-pop-reference", brc_list_push(t, list, ref), brc_list_pop(t, list, &ref))
    TWO("send-recv-reference", brc_send(t, box, ref), brc_recv(t, box, &ref))
    ONE("list-of-3", list_of_3(t, three))
    return 0;
}

int main(int argc, char **argv) {
    brc_heap heap;
    brc_thread thread;
    Made made = {.t = &thread};
    brc_value scalar = brc_of_int(1, 1000), old;
    if (argc != 3) return 2;
    MUST(brc_heap_open(&heap, 512));
    MUST(brc_thread_open(&heap, &thread));
    MUST(brc_new_list(&thread, &made.list));
    MUST(brc_new_dict(&thread, &made.dict));
    MUST(brc_new_mailbox(&thread, &made.box));
    MUST(brc_new_list(&thread, &made.ref));
    MUST(brc_new_list(&thread, &made.count));
    MUST(brc_list_push_value(&thread, made.count, brc_of_int(1, 0)));
    for (int i = 0; i < 16; i++) MUST(brc_list_push_value(&thread, made.list, scalar));
    for (int i = 0; i < 8; i++) MUST(brc_dict_put_int_value(&thread, made.dict, i, scalar, &old));
    MUST(brc_dict_put_text_value(&thread, made.dict, key, sizeof key, scalar, &old));
    if (!turn(argv[1], strtoul(argv[2], NULL, 10), &made)) return 2;
    brc_thread_drop(thread);
    brc_heap_drop(heap);
    return 0;
}
