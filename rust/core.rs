// SPDX-License-Identifier: MIT OR Apache-2.0
//! The core of the C library by rustc, for any processor: the calls of `calls.rs`, with each index tested. A test that
//! failed would end the program. Over std, which prints a panic, the library would call malloc, open and thirty more.
//! No call takes memory; but sources that none reaches name `Vec`, so that rustc asks for an allocator, which is as
//! `unsafe` as `abort`, and before Rust 1.68 for this feature.
#![no_std]
#![feature(default_alloc_error_handler)]

extern crate alloc;

#[path = "calls.rs"]
mod calls;

use alloc::alloc::{GlobalAlloc, Layout};
use calls::{erased::*, *};

extern "C" {
    fn abort() -> !;
}

#[panic_handler]
fn end(_: &core::panic::PanicInfo) -> ! {
    unsafe { abort() }
}

struct NoMemory;

unsafe impl GlobalAlloc for NoMemory {
    unsafe fn alloc(&self, _: Layout) -> *mut u8 {
        core::ptr::null_mut()
    }

    unsafe fn dealloc(&self, _: *mut u8, _: Layout) {}
}

#[global_allocator]
static NO_MEMORY: NoMemory = NoMemory;
