//! For x86-64 programs under the kit's emulator on another processor (`arm/cargo.sh`).
//!
//! At start Rust's library asks the C library for the main thread's stack, and that opens the program's own
//! memory map, of which the emulator dies. This answers in its place that the question cannot be answered;
//! Rust then goes on without a guard of its own.

/// "Not there" (ENOSYS) for every thread.
#[no_mangle]
pub extern "C" fn pthread_getattr_np(_thread: usize, _attributes: *mut u8) -> i32 {
    38
}
