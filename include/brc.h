/* brc.h: an object heap for the threads of a scripting runtime. It counts references as PEP 703 does
 * (biased reference counting), and it is proved.
 *
 * A heap (brc_heap) is opened once. Each thread of the runtime is registered with it (brc_thread) and
 * works by its own variable alone. It makes objects, holds references to them, and gives references
 * to lists, dictionaries and mailboxes. All threads share these. brc_globals is the dictionary in
 * which threads find one another's objects.
 *
 *     brc_heap heap;  brc_thread t;  brc_ref list, one;  brc_status s;  uint64_t live, cycles;
 *
 *     brc_heap_open(&heap, 4096);                       // each call returns a status: look at it
 *     brc_thread_open(&heap, &t);
 *     brc_new_list(&t, &list);
 *     brc_new_int(&t, 1000, &one);
 *     BRC_WAIT(&t, s, brc_list_push(&t, list, one));    // the list owns the reference now
 *     brc_release(&t, list);
 *     BRC_WAIT(&t, s, brc_thread_leave(&t));
 *     brc_thread_drop(t);
 *     BRC_WAIT_HEAP(s, brc_heap_close(&heap, &live, &cycles));
 *     brc_heap_drop(heap);
 *
 * What a caller owes. Nothing checks these five:
 *
 *  1. A brc_heap * or brc_thread * leads to a variable that a call of this page filled, and that no
 *     _drop took. The variable isn't copied.
 *  2. Each such variable is in one call at a time. It may move to another thread of the machine, if a
 *     lock, a join or a sequentially consistent atomic orders the two calls. Different variables need
 *     no order, not even those of one heap.
 *  3. Out parameters may be written. They overlap neither each other, nor the call's variable, nor
 *     bytes that it is passed. A byte pointer leads to as many bytes as its length says. No pointer is
 *     NULL, not even one with length 0.
 *  4. malloc, realloc and free belong to one allocator, which aligns as C says.
 *  5. No call is made in a signal handler, or in the forked child of a process with threads.
 *
 * Whatever else C does costs no memory safety and breaks no count. It may pass numbers out of thin
 * air, call in any order, use one thread's number with another, or drop a thread without a word.
 * docs/C.md says what is proved of this, and what is only tested.
 *
 * References. A brc_ref is a number and no pointer. It names one reference that its thread holds.
 * Every reference that a call hands out is the caller's: nothing is borrowed. It ends in brc_release,
 * or in a call that gives it to a container. Each call looks at its numbers first. A number whose
 * reference has ended is STALE. A number of another thread of the heap is FOREIGN, and so is 0, which
 * is never a reference. One of another heap is FOREIGN if the two heaps' numbers begin apart: see
 * brc_heap_new. A stale number is taken for a live one only after a rare coincidence: one place of
 * the thread was vacated 2^32 times since, or the heap registered 65,535 threads since.
 *
 * Refusals. A call that returns another status than OK changes nothing, but for three: a brc_heap_close
 * that is OUT_OF_MEMORY has ended its heap, a brc_thread_leave that is BUSY or OUT_OF_MEMORY has gone
 * on, and the first call that puts a value has kept its None. What a call was given is still the
 * caller's, and no out parameter is written. No call aborts, throws, calls back, or waits for another
 * thread. Below, the statuses of each call stand in the order in which it looks for them. A status
 * behind a number is looked for at that number; numbers are looked at in the order written.
 *
 * Busy. BRC_BUSY says that another thread's call has this object locked at this moment, or the heap's
 * register of threads. No lock is kept between two calls. Call again, with a poll between: BRC_WAIT.
 *
 * Poll and work. The thread that made an object counts its references without locked instructions, in
 * its own memory: there alone a debugger or a core dump finds that count. Other threads count beside
 * the object, and can ask that thread to settle its count. brc_poll does what was asked. Call it where the
 * interpreter checks for signals, and before it blocks for long. A dead object is taken apart by
 * brc_work, a bounded number of turns a call. Call it at the same places, with 64 turns, say. The
 * cell of a dead object is free only then. A thread that never works fills the heap: see BRC_MAKE.
 *
 * Costs. A call on a container, or a look at an object, locks it for the time of the call. So the looks
 * of many threads at one object come one after the other. No lock is taken by brc_same, brc_truth_of
 * and brc_identity, nor by brc_kind_of and brc_int_of of None, booleans and integers from -5 to 256.
 * brc_text_of copies as many bytes as `room` says, and brc_text_len none; brc_text_of reads the whole
 * text to see that it is UTF-8, where brc_bytes_of reads what it copies. brc_list_take moves all
 * later entries, and a delete all later pairs. A client that deletes much puts a scalar of its own
 * beside the key instead, and makes the dictionary anew at times.
 *
 * Traps. What other threads release goes back to the thread that made it, which learns of it by a poll.
 * So a thread that blocks keeps dead objects: let it wait at most 10 ms at a time, with a poll and work
 * between. Objects that one thread makes one after the other stand side by side in memory. If two
 * threads lock such neighbours all the time, they take a line of the cache from each other. So do two
 * threads whose first objects were made on one thread of the machine: let each make its own.
 *
 * Limits. A heap has 64 threads at a time, and 65,536 registrations in its life. A thread has 65,536
 * references, of which a kept None is one. A heap has 512 to 65,536 cells, of which 266 are taken. A
 * container has 1,048,576 entries. Integers from -5 to 256, None, False, True and the globals are
 * immortal and take no cell. */
#ifndef BRC_H
#define BRC_H

#include <stddef.h>
#include <stdint.h>
#include <string.h>

/* The version of this page, 0.2.0, as 1000 * major + 100 * minor + patch. */
#define BRC_VERSION_MAJOR 0
#define BRC_VERSION_MINOR 2
#define BRC_VERSION 200

#ifdef __cplusplus
extern "C" {
#endif

/* Kept by the caller, and not copied, read or written by it. */
typedef struct brc_heap { void *at; } brc_heap;
typedef struct brc_thread { void *at; } brc_thread;

typedef uint64_t brc_ref;
#define BRC_NONE ((brc_ref)0)               /* no reference */

typedef uint32_t brc_status;
enum {
    BRC_OK = 0,
    BRC_OUT_OF_MEMORY = 1,                  /* malloc returned NULL */
    BRC_HEAP_FULL = 2,                      /* no free cell was found: work, or open a larger heap */
    BRC_FRAME_FULL = 3,                     /* the thread has 65,536 references */
    BRC_BUSY = 4,                           /* call again */
    BRC_WRONG_KIND = 5,                     /* the object isn't of the kind that the call is for */
    BRC_NO_SUCH_PLACE = 6,                  /* past the end, or the list or mailbox is empty */
    BRC_NO_SUCH_KEY = 7,
    BRC_FULL = 8,                           /* the container has 1,048,576 entries */
    BRC_TOO_MANY_THREADS = 9,               /* 64 at a time, 65,536 in the heap's life */
    BRC_NOT_IDLE = 10,                      /* the thread has references; the heap isn't closed */
    BRC_MISSING = 11,                       /* a registered thread hasn't left */
    BRC_BAD_OPTIONS = 14,                   /* a size of a heap is out of its range */
    BRC_LEDGER_FULL = 17,                   /* the thread has made 2^47 objects since its registration */
    BRC_STALE = 64,                         /* the reference was released or given away */
    BRC_FOREIGN = 65,                       /* another thread's number, or none */
    BRC_SAME = 66,                          /* one number stands in two places of a call */
    BRC_GONE = 67,                          /* the thread has left; the heap is closed */
    BRC_NOT_TEXT = 68,                      /* the bytes are not UTF-8 */
    BRC_NOT_VALUE = 69                      /* what the value holds is none of the three */
};

typedef uint32_t brc_kind;
enum {
    BRC_INT = 1,
    BRC_TEXT = 2,
    BRC_LIST = 3,
    BRC_DICT = 4,
    BRC_MAILBOX = 5,
    BRC_NOTHING = 6,                        /* None */
    BRC_FALSE = 7,
    BRC_TRUE = 8
};

/* A key of a dictionary: with is_text 0 it is `number`, else a text of `len` bytes. */
typedef struct brc_key { int64_t number; size_t len; uint32_t is_text; } brc_key;

/* A value: what stands in an entry of a list, a dictionary or a mailbox. `holds` says what it is. A
 * scalar is 64 bits of the program's own, a number or whatever it likes: it is no object, and takes no
 * cell, no reference and no count. A reference has a brc_ref of the thread in `bits`. Both have a label
 * of 32 bits, which is the program's own too, say for what it takes the value. The heap looks at no label
 * and at no scalar. A label belongs to the reference and not to its object: what changes later can't
 * stand in it. A value is passed in two registers; so `value` and `old` of a call may be one variable. */
typedef struct brc_value { uint64_t bits; uint32_t label; uint32_t holds; } brc_value;
enum {
    BRC_NO_VALUE = 0,                       /* written where nothing came out; given, it is a scalar */
    BRC_SCALAR = 1,
    BRC_REFERENCE = 2
};

/* The version of the library: BRC_VERSION of the page that it was built with. Before 1.0.0 a program
 * and a library fit if BRC_VERSION / 100 is the same in both, and then if BRC_VERSION / 1000 is. */
uint32_t brc_version(void);


/* ---- Heaps */

/* Opens a heap, and writes it to `at`, the field of a brc_heap. `cells` is 512 to 65,536. With
 * `local_limit` references to an object of its own, a thread counts further ones atomically: 1 to
 * 4,294,967,294. `first` begins the numbers of this heap's threads. If the heaps of one program get
 * 0, 1024, 2048 and so on, the references of one are FOREIGN to the others, as long as each has
 * registered at most 1,024 threads.
 * BAD_OPTIONS, OUT_OF_MEMORY. */
brc_status brc_heap_new(void **at, uint32_t cells, uint32_t local_limit, uint32_t first);

/* How many threads were registered in the heap's life, how many of these have left, and how many
 * objects those that left made and freed. GONE once the heap is closed, BUSY. */
brc_status brc_heap_counts(brc_heap *, uint32_t *registered, uint32_t *left, uint64_t *allocs, uint64_t *frees);

/* Closes the heap: how many objects remain, and how many groups of them hold one another in a circle.
 * A heap that is closed returns the same numbers again. A heap that got OUT_OF_MEMORY has ended without
 * a report, and is GONE from then on.
 * GONE; BUSY; MISSING while a registered thread hasn't left; BUSY while a thread's last call runs;
 * OUT_OF_MEMORY. */
brc_status brc_heap_close(brc_heap *, uint64_t *live, uint64_t *cycles);

/* The report of a closed heap as text: its bytes from `from` on, as many as `room` allows. `len` is
 * the length of the whole text. Its lines are `ledger ALLOCS FREES LIVE`, `remain CELL KIND HOLDER`
 * for each object that remains, and `cycle CELL CELL ..` for each circle.
 * NOT_IDLE before the heap is closed, GONE if it ended without a report, OUT_OF_MEMORY. */
brc_status brc_heap_report(brc_heap *, size_t from, uint8_t *to, size_t room, size_t *len);

/* Lets go of the heap, at any time. Threads that haven't left work on, and the memory is freed with
 * the last of them. */
void brc_heap_drop(brc_heap);


/* ---- Threads. One that has left is GONE in every call. brc_poll, brc_work and brc_count have no
 * status: of such a thread they return 0, `turns` and 0. */

/* Registers a thread, and writes it to `at`, the field of a brc_thread. The first call is for the
 * thread that has the heap's variable, the second for any registered thread. All memory for the
 * thread's numbers is had here: 1 MB.
 * OUT_OF_MEMORY for what `at` leads to; GONE; OUT_OF_MEMORY for its numbers; BUSY; TOO_MANY_THREADS;
 * OUT_OF_MEMORY. */
brc_status brc_thread_new(brc_heap *, void **at);
brc_status brc_thread_fork(brc_thread *, void **at);

/* The thread leaves the heap. It hands over what it owns, so it may take several calls. BUSY says
 * that there is more to do, or that another call has the register of threads. A thread that is on its
 * way out may be GONE in the other calls already. After OK it has left.
 * GONE; NOT_IDLE if it has references; BUSY while something is left to do; OUT_OF_MEMORY; BUSY again,
 * for the rest of its way. */
brc_status brc_thread_leave(brc_thread *);

/* Lets go of the thread, at any time. It releases all its references, and leaves if it can at once.
 * If it can't, its heap stays MISSING a thread for good. So call brc_thread_leave first. */
void brc_thread_drop(brc_thread);

/* How many objects the thread made, and how many it freed, its own or others'. Also while it leaves.
 * GONE. */
brc_status brc_ledger(brc_thread *, uint64_t *allocs, uint64_t *frees);

/* Does what other threads asked for. Returns 0 if nothing was asked. */
uint64_t brc_poll(brc_thread *);

/* Takes dead objects apart: in each turn one entry is released, or one object's memory is freed.
 * Returns how many turns are left over. More than 0 means that no dead object remains. */
size_t brc_work(brc_thread *, size_t turns);

/* How many references the thread has. */
size_t brc_count(brc_thread *);

/* Releases all references of the thread: each of its numbers is STALE then. GONE. */
brc_status brc_release_all(brc_thread *);

/* A hint: the search for a free cell begins here. If `near_last` isn't 0, each later search begins
 * where the thread worked last. A new thread has both: it begins with its part of the heap, one of 64.
 * So threads that make objects at the same time don't meet. In a small heap with few threads, give
 * thread i of n the cell cells * i / n. GONE. */
brc_status brc_claim(brc_thread *, uint32_t cell, uint32_t near_last);


/* ---- References. These calls are never BUSY. */

/* One more reference to the same object, with a number of its own.
 * GONE, FOREIGN, STALE, FRAME_FULL, OUT_OF_MEMORY. */
brc_status brc_retain(brc_thread *, brc_ref, brc_ref *more);

/* Ends a reference: its number is STALE from now on. GONE, FOREIGN, STALE. */
brc_status brc_release(brc_thread *, brc_ref);

/* Writes 1 if both are references to one object, else 0. The numbers may be equal.
 * GONE; of `one` FOREIGN, STALE; of `other` FOREIGN, STALE. */
brc_status brc_same(brc_thread *, brc_ref one, brc_ref other, uint32_t *same);

/* A number that no other live object has, for tables by identity. Once the object is dead, another may
 * get it. It takes no lock.
 * GONE, FOREIGN, STALE. */
brc_status brc_identity(brc_thread *, brc_ref, uint64_t *identity);


/* ---- Objects. Makers are never BUSY. */

/* A reference to None; to False, if the number is 0, or True; to the globals. They are immortal.
 * GONE, FRAME_FULL, OUT_OF_MEMORY. */
brc_status brc_none(brc_thread *, brc_ref *made);
brc_status brc_truth(brc_thread *, uint32_t, brc_ref *made);
brc_status brc_globals(brc_thread *, brc_ref *made);

/* An integer. From -5 to 256 it is immortal, with the statuses of brc_none.
 * GONE, FRAME_FULL, LEDGER_FULL, OUT_OF_MEMORY, HEAP_FULL. */
brc_status brc_new_int(brc_thread *, int64_t, brc_ref *made);

/* A text with a copy of these bytes, which must be UTF-8. It may be empty, and may have bytes 0.
 * GONE, NOT_TEXT, OUT_OF_MEMORY for the copy, FRAME_FULL, LEDGER_FULL, OUT_OF_MEMORY, HEAP_FULL. */
brc_status brc_new_text(brc_thread *, const uint8_t *bytes, size_t len, brc_ref *made);

/* The same of any bytes. Its kind is BRC_TEXT: a text is bytes that are UTF-8, and these may be so, too.
 * GONE, OUT_OF_MEMORY for the copy, FRAME_FULL, LEDGER_FULL, OUT_OF_MEMORY, HEAP_FULL. */
brc_status brc_new_bytes(brc_thread *, const uint8_t *bytes, size_t len, brc_ref *made);

/* An empty list with memory for so many entries, and a dictionary with memory for so many pairs: it
 * grows no more until they are there. Past 1,048,576 it is memory for 1,048,576.
 * GONE, FRAME_FULL, LEDGER_FULL, OUT_OF_MEMORY, HEAP_FULL. */
brc_status brc_new_list_for(brc_thread *, uint32_t entries, brc_ref *made);
brc_status brc_new_dict_for(brc_thread *, uint32_t pairs, brc_ref *made);

/* An empty list, dictionary, mailbox.
 * GONE, FRAME_FULL, LEDGER_FULL, OUT_OF_MEMORY, HEAP_FULL. */
brc_status brc_new_list(brc_thread *, brc_ref *made);
brc_status brc_new_dict(brc_thread *, brc_ref *made);
brc_status brc_new_mailbox(brc_thread *, brc_ref *made);


/* ---- What an object is */

/* The kind of any object. It takes no lock of None, booleans and integers from -5 to 256.
 * GONE, FOREIGN, STALE, BUSY. */
brc_status brc_kind_of(brc_thread *, brc_ref, brc_kind *kind);

/* How many entries a list, a dictionary or a mailbox has. GONE, FOREIGN, STALE, BUSY, WRONG_KIND. */
brc_status brc_len_of(brc_thread *, brc_ref, size_t *len);

/* The number of an integer. It takes no lock of None, booleans and integers from -5 to 256.
 * GONE, FOREIGN, STALE, BUSY, WRONG_KIND. */
brc_status brc_int_of(brc_thread *, brc_ref, int64_t *value);

/* 1 of True, 0 of False. It takes no lock. GONE, FOREIGN, STALE, WRONG_KIND. */
brc_status brc_truth_of(brc_thread *, brc_ref, uint32_t *is_true);

/* The first bytes of a text, as many as `room` allows. `len` is the length of the whole text. A text
 * never changes, so a second call with enough room finds the same. No memory is taken. Bytes that aren't
 * UTF-8 are of another kind: so all of it is read each time. GONE, FOREIGN, STALE, BUSY, WRONG_KIND. */
brc_status brc_text_of(brc_thread *, brc_ref, uint8_t *to, size_t room, size_t *len);

/* The same of any bytes, those of a text, too. What isn't copied isn't read. */
brc_status brc_bytes_of(brc_thread *, brc_ref, uint8_t *to, size_t room, size_t *len);

/* Whether a text, or other bytes, are just these: 1 or 0. No memory is taken.
 * GONE, FOREIGN, STALE, BUSY, WRONG_KIND. */
brc_status brc_text_is(brc_thread *, brc_ref, const uint8_t *bytes, size_t len, uint32_t *is_same);

/* Whether two texts have the same bytes: 1 or 0. One object is equal at once, whatever it is, without a
 * lock. Else it takes two locks, one after the other, for the first 256 bytes and for each 4,096 behind
 * them. It stops where the texts differ. No memory is taken. After BUSY the call can be made again.
 * GONE; of `one` FOREIGN, STALE; of `other` FOREIGN, STALE; BUSY, WRONG_KIND. */
brc_status brc_text_equal(brc_thread *, brc_ref one, brc_ref other, uint32_t *is_same);


/* ---- Lists and mailboxes. After OK, a value that was given belongs to the container, and its number
 * is STALE. After any other status it is still the caller's. */

/* The value becomes the last entry. GONE; of `list` FOREIGN, STALE; of `value` FOREIGN, STALE; SAME,
 * BUSY, WRONG_KIND, FULL, OUT_OF_MEMORY. */
brc_status brc_list_push(brc_thread *, brc_ref list, brc_ref value);

/* The last entry, out of the list.
 * GONE, FOREIGN, STALE, BUSY, WRONG_KIND, NO_SUCH_PLACE, FRAME_FULL, OUT_OF_MEMORY. */
brc_status brc_list_pop(brc_thread *, brc_ref list, brc_ref *value);

/* The entry at the index, out of the list: later entries move up.
 * GONE, FOREIGN, STALE, BUSY, WRONG_KIND, NO_SUCH_PLACE, FRAME_FULL, OUT_OF_MEMORY. */
brc_status brc_list_take(brc_thread *, brc_ref list, uint32_t index, brc_ref *value);

/* One more reference to the entry at the index, which stays.
 * GONE, FOREIGN, STALE, BUSY, WRONG_KIND, NO_SUCH_PLACE, FRAME_FULL, OUT_OF_MEMORY. */
brc_status brc_list_get(brc_thread *, brc_ref list, uint32_t index, brc_ref *value);

/* The value becomes the entry at the index, and what was there becomes `old`, which is the caller's.
 * GONE; of `list` FOREIGN, STALE; of `value` FOREIGN, STALE; SAME, BUSY, WRONG_KIND, NO_SUCH_PLACE. */
brc_status brc_list_set(brc_thread *, brc_ref list, uint32_t index, brc_ref value, brc_ref *old);

/* The value becomes the last letter of the mailbox. GONE; of `mailbox` FOREIGN, STALE; of `value`
 * FOREIGN, STALE; SAME, BUSY, WRONG_KIND, FULL, OUT_OF_MEMORY. */
brc_status brc_send(brc_thread *, brc_ref mailbox, brc_ref value);

/* The first letter, out of the mailbox. It doesn't wait for one: an empty mailbox is NO_SUCH_PLACE.
 * GONE, FOREIGN, STALE, BUSY, WRONG_KIND, NO_SUCH_PLACE, FRAME_FULL, OUT_OF_MEMORY. */
brc_status brc_recv(brc_thread *, brc_ref mailbox, brc_ref *value);


/* ---- Dictionaries. A key is an integer, or a text or other bytes: a text and the same bytes are one key.
 * Pairs stand in the order in which their keys came. */

/* The value goes beside the key. `old` is the value that was there, now the caller's, or 0 if there
 * was none. GONE; NOT_TEXT of a text; of `dict` FOREIGN, STALE; of `value` FOREIGN, STALE; SAME, BUSY,
 * WRONG_KIND, FULL, OUT_OF_MEMORY. */
brc_status brc_dict_put_int(brc_thread *, brc_ref dict, int64_t key, brc_ref value, brc_ref *old);
brc_status brc_dict_put_text(brc_thread *, brc_ref dict, const uint8_t *key, size_t len, brc_ref value, brc_ref *old);
brc_status brc_dict_put_bytes(brc_thread *, brc_ref dict, const uint8_t *key, size_t len, brc_ref value, brc_ref *old);

/* One more reference to the value beside the key, which stays.
 * GONE, NOT_TEXT of a text, FOREIGN, STALE, BUSY, WRONG_KIND, NO_SUCH_KEY, FRAME_FULL, OUT_OF_MEMORY. */
brc_status brc_dict_find_int(brc_thread *, brc_ref dict, int64_t key, brc_ref *value);
brc_status brc_dict_find_text(brc_thread *, brc_ref dict, const uint8_t *key, size_t len, brc_ref *value);
brc_status brc_dict_find_bytes(brc_thread *, brc_ref dict, const uint8_t *key, size_t len, brc_ref *value);

/* The value beside the key, out of the dictionary, and its pair ends: later pairs move up.
 * GONE, NOT_TEXT of a text, FOREIGN, STALE, BUSY, WRONG_KIND, NO_SUCH_KEY, FRAME_FULL, OUT_OF_MEMORY. */
brc_status brc_dict_del_int(brc_thread *, brc_ref dict, int64_t key, brc_ref *value);
brc_status brc_dict_del_text(brc_thread *, brc_ref dict, const uint8_t *key, size_t len, brc_ref *value);
brc_status brc_dict_del_bytes(brc_thread *, brc_ref dict, const uint8_t *key, size_t len, brc_ref *value);

/* The pair at an index: its key, and one more reference to its value. Of a text the first bytes go to
 * `to`, as many as `room` allows.
 * GONE, FOREIGN, STALE, BUSY, WRONG_KIND, NO_SUCH_PLACE, FRAME_FULL, OUT_OF_MEMORY. */
brc_status brc_dict_pair(brc_thread *, brc_ref dict, uint32_t index, brc_key *key, uint8_t *to, size_t room,
                         brc_ref *value);

/* Whether the dictionary has the key: 1 or 0. No reference is made.
 * GONE, NOT_TEXT of a text, FOREIGN, STALE, BUSY, WRONG_KIND. */
brc_status brc_dict_has_int(brc_thread *, brc_ref dict, int64_t key, uint32_t *has);
brc_status brc_dict_has_text(brc_thread *, brc_ref dict, const uint8_t *key, size_t len, uint32_t *has);

/* At which index the key's pair stands, for brc_dict_pair. It stands there until the next delete by any
 * thread. GONE, NOT_TEXT of a text, FOREIGN, STALE, BUSY, WRONG_KIND, NO_SUCH_KEY. */
brc_status brc_dict_place_int(brc_thread *, brc_ref dict, int64_t key, uint32_t *index);
brc_status brc_dict_place_text(brc_thread *, brc_ref dict, const uint8_t *key, size_t len, uint32_t *index);


/* ---- Values. The same containers by values. A call of this part and one without `_value` may be mixed
 * on one object. What a call without `_value` puts has the label 0. What it takes or finds is the
 * reference alone: of a scalar it is one to None. So None that was put without `_value` is the scalar with
 * label 0 and bits 0, and None that is given with a label comes back as a scalar with that label.
 *
 * After OK, a reference that was given belongs to the container, and one that is written is the
 * caller's. A scalar belongs to nobody. A refusal writes nothing.
 *
 * The statuses are those of the call without `_value`, in the same order, with these differences.
 * NOT_VALUE comes right behind GONE and NOT_TEXT. A scalar is never STALE, FOREIGN or SAME. The first
 * call that puts a value makes a reference to None, which the thread keeps: FRAME_FULL and
 * OUT_OF_MEMORY may come for it, behind those of the numbers. It stays whatever that call comes to, and
 * brc_release_all leaves it. It takes one of the 65,536 places of the thread, has no number, and
 * brc_count leaves it out. brc_thread_leave lets it go. A scalar that is taken out wants a place of the
 * thread for a moment, and no memory for it, so FRAME_FULL may come; a look at a scalar wants none. A
 * scalar put where a reference stands wants one for what comes out: FRAME_FULL, OUT_OF_MEMORY. */

/* A new list of these values, in their order. It has memory for just so many, which is had at once. For
 * few values this takes about a tenth fewer instructions than making a list and pushing them. After OK
 * each reference among the values belongs to the list. A refusal leaves all of them the caller's.
 * Should the heap refuse a value of the new list, the list is released with those before it. It refuses
 * none, and BUSY doesn't come: no other thread knows the list, and it has room. But that is not proved.
 * GONE; NOT_VALUE of any value; FULL for more than 1,048,576; of the first number that names nothing
 * FOREIGN, STALE; SAME if a number stands twice; FRAME_FULL and OUT_OF_MEMORY for the None that the
 * thread keeps; FRAME_FULL, LEDGER_FULL, OUT_OF_MEMORY, HEAP_FULL. */
brc_status brc_new_list_of(brc_thread *, const brc_value *values, size_t n, brc_ref *made);

/* The value becomes the last entry. */
brc_status brc_list_push_value(brc_thread *, brc_ref list, brc_value value);

/* The last entry, out of the list; the one at the index, and later entries move up. */
brc_status brc_list_pop_value(brc_thread *, brc_ref list, brc_value *value);
brc_status brc_list_take_value(brc_thread *, brc_ref list, uint32_t index, brc_value *value);

/* The entry at the index, which stays. Of a reference it is one more. */
brc_status brc_list_get_value(brc_thread *, brc_ref list, uint32_t index, brc_value *value);

/* The value becomes the entry at the index, and what was there becomes `old`. */
brc_status brc_list_set_value(brc_thread *, brc_ref list, uint32_t index, brc_value value, brc_value *old);

/* The same; and at the index that is the list's length the value becomes the last entry: `old` holds
 * BRC_NO_VALUE then. So of two threads that fill a list from its end, none overwrites the other's.
 * Behind NO_SUCH_PLACE come FULL and OUT_OF_MEMORY. */
brc_status brc_list_put_value(brc_thread *, brc_ref list, uint32_t index, brc_value value, brc_value *old);

/* The value becomes the last letter; the first letter, out of the mailbox. */
brc_status brc_send_value(brc_thread *, brc_ref mailbox, brc_value value);
brc_status brc_recv_value(brc_thread *, brc_ref mailbox, brc_value *value);

/* The value goes beside the key, and `old` is what was there, or holds BRC_NO_VALUE. */
brc_status brc_dict_put_int_value(brc_thread *, brc_ref dict, int64_t key, brc_value value, brc_value *old);
brc_status brc_dict_put_text_value(brc_thread *, brc_ref dict, const uint8_t *key, size_t len, brc_value value,
                                   brc_value *old);
brc_status brc_dict_put_bytes_value(brc_thread *, brc_ref dict, const uint8_t *key, size_t len, brc_value value,
                                    brc_value *old);

/* The value goes beside the key, if that is new: `back` holds BRC_NO_VALUE then. Else the value comes
 * back as it is, a reference under another number, and no memory is wanted. So of two threads that put
 * one, one puts it. */
brc_status brc_dict_put_new_int_value(brc_thread *, brc_ref dict, int64_t key, brc_value value, brc_value *back);
brc_status brc_dict_put_new_text_value(brc_thread *, brc_ref dict, const uint8_t *key, size_t len, brc_value value,
                                       brc_value *back);

/* `value` goes in if what stands there is still `expected`: the same scalar, label and bits; or the same
 * object, whatever label it has there. Then `value` is what stood there, and `swapped` is 1. Else it
 * comes back as it is, a reference under another number, and `swapped` is 0. The look and the swap are
 * one step, so of two threads that expect the same, one swaps: a count that many raise loses none.
 * `expected` stays the caller's. NOT_VALUE comes of either; FOREIGN and STALE of `expected` come before
 * those of the container. Without the entry it is NO_SUCH_PLACE, and without the key NO_SUCH_KEY. */
brc_status brc_list_swap_if(brc_thread *, brc_ref list, uint32_t index, brc_value expected, brc_value *value,
                            uint32_t *swapped);
brc_status brc_dict_swap_if_int(brc_thread *, brc_ref dict, int64_t key, brc_value expected, brc_value *value,
                                uint32_t *swapped);
brc_status brc_dict_swap_if_text(brc_thread *, brc_ref dict, const uint8_t *key, size_t len, brc_value expected,
                                 brc_value *value, uint32_t *swapped);

/* What is beside the key, which stays. Of a reference it is one more. */
brc_status brc_dict_find_int_value(brc_thread *, brc_ref dict, int64_t key, brc_value *value);
brc_status brc_dict_find_text_value(brc_thread *, brc_ref dict, const uint8_t *key, size_t len, brc_value *value);
brc_status brc_dict_find_bytes_value(brc_thread *, brc_ref dict, const uint8_t *key, size_t len, brc_value *value);

/* What is beside the key, out of the dictionary, and its pair ends: later pairs move up. */
brc_status brc_dict_del_int_value(brc_thread *, brc_ref dict, int64_t key, brc_value *value);
brc_status brc_dict_del_text_value(brc_thread *, brc_ref dict, const uint8_t *key, size_t len, brc_value *value);
brc_status brc_dict_del_bytes_value(brc_thread *, brc_ref dict, const uint8_t *key, size_t len, brc_value *value);

/* The pair at an index, as brc_dict_pair has it, and how many pairs there are, which is the index to
 * stop at: all as one look found them. */
brc_status brc_dict_pair_value(brc_thread *, brc_ref dict, uint32_t index, brc_key *key, uint8_t *to, size_t room,
                               brc_value *value, uint32_t *pairs);


/* ---- Helpers: these are compiled into the program, and are no part of the library. */

/* What a loop does while a call is BUSY. Define it before this page, as sched_yield(), say. */
#ifndef BRC_YIELD
#define BRC_YIELD() ((void)0)
#endif

/* s = call, again and again until it isn't BUSY, with a poll of the thread between. */
#define BRC_WAIT(thread, s, call)                                                                     \
    do {                                                                                              \
        while (((s) = (call)) == BRC_BUSY) { (void)brc_poll(thread); BRC_YIELD(); }                   \
    } while (0)

/* The same for a call on a heap, where there is no thread to poll. */
#define BRC_WAIT_HEAP(s, call)                                                                        \
    do {                                                                                              \
        while (((s) = (call)) == BRC_BUSY) { BRC_YIELD(); }                                           \
    } while (0)

/* s = call, a maker. If the heap is full, the thread takes all its dead objects apart and tries once
 * more. */
#define BRC_MAKE(thread, s, call)                                                                     \
    do {                                                                                              \
        if (((s) = (call)) == BRC_HEAP_FULL) {                                                        \
            (void)brc_poll(thread);                                                                   \
            while (brc_work(thread, 4096) == 0) { }                                                   \
            (s) = (call);                                                                             \
        }                                                                                             \
    } while (0)

/* A heap of so many cells, with the other options as usual and `first` 0. A program with several
 * heaps calls brc_heap_new. */
static inline brc_status brc_heap_open(brc_heap *heap, uint32_t cells) {
    return brc_heap_new(&heap->at, cells, 4294967294u, 0);
}

static inline brc_status brc_thread_open(brc_heap *heap, brc_thread *thread) {
    return brc_thread_new(heap, &thread->at);
}

/* Releases the reference in a variable, and clears the variable, as Py_CLEAR does. */
static inline brc_status brc_clear(brc_thread *thread, brc_ref *variable) {
    brc_ref old = *variable;
    *variable = BRC_NONE;
    if (old == BRC_NONE) return BRC_OK;
    return brc_release(thread, old);
}

/* The same calls with a text that ends in a byte 0. */
static inline brc_status brc_new_str(brc_thread *thread, const char *text, brc_ref *made) {
    return brc_new_text(thread, (const uint8_t *)text, strlen(text), made);
}

static inline brc_status brc_put(brc_thread *thread, brc_ref dict, const char *key, brc_ref value, brc_ref *old) {
    return brc_dict_put_text(thread, dict, (const uint8_t *)key, strlen(key), value, old);
}

static inline brc_status brc_find(brc_thread *thread, brc_ref dict, const char *key, brc_ref *value) {
    return brc_dict_find_text(thread, dict, (const uint8_t *)key, strlen(key), value);
}

static inline brc_status brc_del(brc_thread *thread, brc_ref dict, const char *key, brc_ref *value) {
    return brc_dict_del_text(thread, dict, (const uint8_t *)key, strlen(key), value);
}

/* Values of the usual kinds. */
static inline brc_value brc_of_bits(uint32_t label, uint64_t bits) {
    brc_value value = { bits, label, BRC_SCALAR };
    return value;
}

static inline brc_value brc_of_int(uint32_t label, int64_t number) { return brc_of_bits(label, (uint64_t)number); }

static inline brc_value brc_of_double(uint32_t label, double number) {
    uint64_t bits;
    memcpy(&bits, &number, sizeof bits);
    return brc_of_bits(label, bits);
}

static inline brc_value brc_of_ref(uint32_t label, brc_ref ref) {
    brc_value value = { ref, label, BRC_REFERENCE };
    return value;
}

static inline int64_t brc_int_in(brc_value value) {
    int64_t number;
    memcpy(&number, &value.bits, sizeof number);
    return number;
}

static inline double brc_double_in(brc_value value) {
    double number;
    memcpy(&number, &value.bits, sizeof number);
    return number;
}

/* Releases what a value refers to, if it is a reference, and clears the variable. */
static inline brc_status brc_value_clear(brc_thread *thread, brc_value *variable) {
    brc_value old = *variable;
    variable->bits = 0;
    variable->label = 0;
    variable->holds = BRC_NO_VALUE;
    if (old.holds != BRC_REFERENCE) return BRC_OK;
    return brc_release(thread, (brc_ref)old.bits);
}

/* The length of a text, or of other bytes, in bytes. None of them is read. */
static inline brc_status brc_text_len(brc_thread *thread, brc_ref text, size_t *len) {
    uint8_t none;
    return brc_bytes_of(thread, text, &none, 0, len);
}

/* The name of a status, as the heap's own pages print it. */
static inline const char *brc_status_name(brc_status status) {
    switch (status) {
    case BRC_OK: return "Ok";
    case BRC_OUT_OF_MEMORY: return "OutOfMemory";
    case BRC_HEAP_FULL: return "HeapFull";
    case BRC_FRAME_FULL: return "FrameFull";
    case BRC_BUSY: return "Busy";
    case BRC_WRONG_KIND: return "WrongKind";
    case BRC_NO_SUCH_PLACE: return "NoSuchPlace";
    case BRC_NO_SUCH_KEY: return "NoSuchKey";
    case BRC_FULL: return "Full";
    case BRC_TOO_MANY_THREADS: return "TooManyThreads";
    case BRC_NOT_IDLE: return "NotIdle";
    case BRC_MISSING: return "Missing";
    case BRC_BAD_OPTIONS: return "BadOptions";
    case BRC_LEDGER_FULL: return "LedgerFull";
    case BRC_STALE: return "Stale";
    case BRC_FOREIGN: return "Foreign";
    case BRC_SAME: return "Same";
    case BRC_GONE: return "Gone";
    case BRC_NOT_TEXT: return "NotText";
    case BRC_NOT_VALUE: return "NotValue";
    default: return "?";
    }
}

#ifdef __cplusplus
}
#endif
#endif
