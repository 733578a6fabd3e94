//! brc from Rust: four threads, each of which makes a thousand objects in a heap of 512 cells.
//!
//!     rustc --edition 2021 -O -L native=DIST/lib use.rs && ./use
//!
//! A variable of a thread is moved to the thread that works with it, so `Thread` is `Send`. A reference that was released is
//! Stale, and without `brc_work` the heap would soon be full.

use std::ffi::c_void;
use std::ptr::null_mut;

#[repr(C)]
pub struct Heap {
    at: *mut c_void,
}

#[repr(C)]
pub struct Thread {
    at: *mut c_void,
}

unsafe impl Send for Thread {}

const OK: u32 = 0;
const BUSY: u32 = 4;
const STALE: u32 = 64;

#[link(name = "brc", kind = "static")]
extern "C" {
    fn brc_heap_new(at: *mut *mut c_void, cells: u32, local_limit: u32, first: u32) -> u32;
    fn brc_heap_close(heap: *mut Heap, live: *mut u64, cycles: *mut u64) -> u32;
    fn brc_heap_drop(heap: Heap);
    fn brc_thread_new(heap: *mut Heap, at: *mut *mut c_void) -> u32;
    fn brc_thread_leave(thread: *mut Thread) -> u32;
    fn brc_thread_drop(thread: Thread);
    fn brc_new_int(thread: *mut Thread, value: i64, made: *mut u64) -> u32;
    fn brc_int_of(thread: *mut Thread, held: u64, value: *mut i64) -> u32;
    fn brc_retain(thread: *mut Thread, held: u64, more: *mut u64) -> u32;
    fn brc_release(thread: *mut Thread, held: u64) -> u32;
    fn brc_poll(thread: *mut Thread) -> u64;
    fn brc_work(thread: *mut Thread, turns: usize) -> usize;
}

/// What a thread does with its variable, which is then dropped.
fn works(mut thread: Thread) {
    let t: *mut Thread = &mut thread;
    unsafe {
        for i in 1_000..2_000 {
            let (mut one, mut more, mut value) = (0, 0, 0);
            assert_eq!(brc_new_int(t, i, &mut one), OK);
            assert_eq!(brc_retain(t, one, &mut more), OK);
            assert_eq!(brc_release(t, one), OK);
            assert_eq!(brc_release(t, one), STALE);
            assert_eq!(brc_int_of(t, more, &mut value), OK);
            assert_eq!(value, i);
            assert_eq!(brc_release(t, more), OK);
            brc_work(t, 8);
        }
        loop {
            match brc_thread_leave(t) {
                OK => break,
                BUSY => brc_poll(t),
                status => panic!("leave: status {status}"),
            };
        }
        brc_thread_drop(thread);
    }
}

fn main() {
    let mut heap = Heap { at: null_mut() };
    assert_eq!(unsafe { brc_heap_new(&mut heap.at, 512, u32::MAX - 1, 0) }, OK);
    let running: Vec<_> = (0..4)
        .map(|_| {
            let mut thread = Thread { at: null_mut() };
            assert_eq!(unsafe { brc_thread_new(&mut heap, &mut thread.at) }, OK);
            std::thread::spawn(move || works(thread))
        })
        .collect();
    for thread in running {
        thread.join().expect("a thread failed");
    }
    let (mut live, mut cycles) = (9, 9);
    assert_eq!(unsafe { brc_heap_close(&mut heap, &mut live, &mut cycles) }, OK);
    unsafe { brc_heap_drop(heap) };
    println!("live {live}, cycles {cycles}");
}
