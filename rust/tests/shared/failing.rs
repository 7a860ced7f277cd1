// SPDX-License-Identifier: MIT OR Apache-2.0
//! An allocator that fails when it is told to.
use std::alloc::{GlobalAlloc, Layout, System};
use std::cell::Cell;
use std::fmt::Display;

/// How many allocations of this thread succeed before one fails, and how many bytes all took.
struct Failing;

thread_local!(static LEFT: Cell<usize> = const { Cell::new(usize::MAX) });
thread_local!(pub static TAKEN: Cell<usize> = const { Cell::new(0) });

impl Failing {
    fn fails(&self, size: usize) -> bool {
        TAKEN.with(|taken| taken.set(taken.get() + size));
        LEFT.with(|left| {
            let n = left.get();
            left.set(n.wrapping_sub(1));
            n == 0
        })
    }
}

unsafe impl GlobalAlloc for Failing {
    unsafe fn alloc(&self, layout: Layout) -> *mut u8 {
        if self.fails(layout.size()) {
            std::ptr::null_mut()
        } else {
            System.alloc(layout)
        }
    }

    unsafe fn dealloc(&self, place: *mut u8, layout: Layout) {
        System.dealloc(place, layout);
    }

    unsafe fn realloc(&self, place: *mut u8, layout: Layout, size: usize) -> *mut u8 {
        if self.fails(size) {
            std::ptr::null_mut()
        } else {
            System.realloc(place, layout, size)
        }
    }
}

#[global_allocator]
static FAILING: Failing = Failing;

/// How many allocations a call takes, each of which was let fail.
pub fn tried<T, E: Display>(call: impl Fn() -> Result<T, E>) -> usize {
    for n in 0.. {
        LEFT.with(|left| left.set(n));
        let result = call();
        let left = LEFT.with(|left| left.replace(usize::MAX));
        match result {
            Ok(_) => {
                assert!(left <= n);
                return n;
            }
            Err(why) => assert_eq!(why.to_string(), "out of memory"),
        }
    }
    unreachable!()
}
