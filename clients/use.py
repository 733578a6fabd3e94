"""brc from Python, by ctypes: python3 use.py LIBBRC_SO [BRC_H]

Four Python threads push integers onto one list, which they find in the globals, every other one as a scalar; then their sum is
looked at. ctypes releases
Python's own lock during a call, so the four are in brc at the same time. With the header, the types of all calls are read off
its prototypes."""
import ctypes
import os
import re
import sys
import threading

THREADS, EACH = 4, 300
OK, HEAP_FULL, BUSY, STALE, FOREIGN = 0, 2, 4, 64, 65


class Variable(ctypes.Structure):
    """brc_heap and brc_thread: a variable of one pointer."""

    _fields_ = [("at", ctypes.c_void_p)]


class Key(ctypes.Structure):
    _fields_ = [("number", ctypes.c_int64), ("len", ctypes.c_size_t), ("is_text", ctypes.c_uint32)]


class Value(ctypes.Structure):
    _fields_ = [("bits", ctypes.c_uint64), ("label", ctypes.c_uint32), ("holds", ctypes.c_uint32)]


SCALAR, REFERENCE = 1, 2
NUMBERS = {"int64_t": ctypes.c_int64, "uint64_t": ctypes.c_uint64, "uint32_t": ctypes.c_uint32, "size_t": ctypes.c_size_t}
NUMBERS |= {"brc_ref": ctypes.c_uint64, "brc_status": ctypes.c_uint32, "brc_kind": ctypes.c_uint32}
TYPES = {**NUMBERS, "brc_heap": Variable, "brc_thread": Variable, "brc_key": Key, "brc_value": Value}


def type_of(words):
    """The type of a parameter, as ctypes has it."""
    name = re.match(r"(?:const )?(\w+)", words)[1]
    if "**" in words:
        return ctypes.POINTER(ctypes.c_void_p)
    if name == "uint8_t":
        return ctypes.c_char_p if words.startswith("const ") else ctypes.c_void_p
    return ctypes.POINTER(TYPES[name]) if "*" in words else TYPES[name]


def declare(library, header):
    """Gives each call of the header its types."""
    text = re.sub(r"/\*.*?\*/", "", open(header, encoding="utf-8").read(), flags=re.S)
    for result, name, parameters in re.findall(r"^(\w+) +(brc_\w+)\(([^)]*)\);", text, flags=re.M):
        call = getattr(library, name)
        call.restype = TYPES.get(result)
        call.argtypes = [] if parameters == "void" else [type_of(it.strip()) for it in parameters.split(",")]


brc = ctypes.CDLL(os.path.abspath(sys.argv[1]))
here = os.path.dirname(os.path.abspath(__file__))
declare(brc, sys.argv[2] if len(sys.argv) > 2 else f"{here}/../include/brc.h")


class Refused(Exception):
    pass


def call(thread, name, *given):
    """What the call hands out, if it hands out something. It is made again while it is Busy, and a maker works first if the
    heap is full."""
    function = getattr(brc, name)
    outs = [kind._type_() for kind in function.argtypes[1 + len(given) :]]
    while status := function(ctypes.byref(thread), *given, *map(ctypes.byref, outs)):
        if status == HEAP_FULL:
            brc.brc_work(ctypes.byref(thread), 4096)
        elif status != BUSY:
            raise Refused(name, status)
        brc.brc_poll(ctypes.byref(thread))
    return getattr(outs[0], "value", outs[0]) if outs else None


def new_thread(heap):
    at = ctypes.c_void_p()
    if status := brc.brc_thread_new(ctypes.byref(heap), ctypes.byref(at)):
        raise Refused("brc_thread_new", status)
    return Variable(at.value)


def pushes(thread, number):
    """The work of a thread: its integers go onto the list."""
    shared = call(thread, "brc_globals")
    numbers = call(thread, "brc_dict_find_text", shared, b"numbers", 7)
    for i in range(EACH):
        it = 1000 * number + i
        if i % 2:
            call(thread, "brc_list_push_value", numbers, Value(it, number, SCALAR))
        else:
            call(thread, "brc_list_push", numbers, call(thread, "brc_new_int", it))
    for reference in (shared, numbers):
        call(thread, "brc_release", reference)
    assert brc.brc_release(ctypes.byref(thread), numbers) == STALE
    call(thread, "brc_thread_leave")


def main():
    at = ctypes.c_void_p()
    assert brc.brc_heap_new(ctypes.byref(at), 4096, 4294967294, 0) == OK
    heap = Variable(at.value)
    first = new_thread(heap)
    shared, numbers = call(first, "brc_globals"), call(first, "brc_new_list")
    call(first, "brc_dict_put_text", shared, b"numbers", 7, call(first, "brc_retain", numbers))

    threads = [new_thread(heap) for _ in range(THREADS)]
    assert brc.brc_release(ctypes.byref(threads[0]), numbers) == FOREIGN
    running = [threading.Thread(target=pushes, args=(thread, i)) for i, thread in enumerate(threads)]
    for it in running:
        it.start()
    for it in running:
        it.join()

    total = 0
    while call(first, "brc_len_of", numbers):
        one = call(first, "brc_list_pop_value", numbers)
        if one.holds == SCALAR:
            total += one.bits
            assert one.label == one.bits // 1000
            continue
        assert (one.holds, one.label) == (REFERENCE, 0)
        total += call(first, "brc_int_of", one.bits)
        call(first, "brc_release", one.bits)
    call(first, "brc_release", call(first, "brc_dict_del_text", shared, b"numbers", 7))
    call(first, "brc_release_all")
    call(first, "brc_thread_leave")
    for thread in [*threads, first]:
        brc.brc_thread_drop(thread)
    live, cycles = ctypes.c_uint64(), ctypes.c_uint64()
    status = brc.brc_heap_close(ctypes.byref(heap), ctypes.byref(live), ctypes.byref(cycles))
    brc.brc_heap_drop(heap)
    wanted = sum(1000 * number + i for number in range(THREADS) for i in range(EACH))
    print(f"sum {total}, live {live.value}")
    return 0 if (total, status, live.value) == (wanted, OK, 0) else 1


sys.exit(main())
