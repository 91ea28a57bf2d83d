//! The memory that a message takes in Rust: the vector that is returned, and none to verify. The test in C counts that of the library
//! (`bindings/c/test_messages.c`).

mod meeting;

use meeting::meet;
use std::alloc::{GlobalAlloc, Layout, System};
use std::cell::Cell;

thread_local! {
    static GIVEN: Cell<usize> = const { Cell::new(0) };
}

/// The system's memory. It counts the blocks of a thread.
struct Counted;

// SAFETY: each call is the system's.
unsafe impl GlobalAlloc for Counted {
    unsafe fn alloc(&self, layout: Layout) -> *mut u8 {
        GIVEN.set(GIVEN.get() + 1);
        // SAFETY: as the caller says.
        unsafe { System.alloc(layout) }
    }

    unsafe fn dealloc(&self, at: *mut u8, layout: Layout) {
        // SAFETY: as the caller says.
        unsafe { System.dealloc(at, layout) }
    }

    unsafe fn realloc(&self, at: *mut u8, layout: Layout, size: usize) -> *mut u8 {
        GIVEN.set(GIVEN.get() + 1);
        // SAFETY: as the caller says.
        unsafe { System.realloc(at, layout, size) }
    }
}

#[global_allocator]
static MEMORY: Counted = Counted;

/// The result of a call, and the number of blocks that it took.
fn counted<T>(call: impl FnOnce() -> T) -> (T, usize) {
    let before = GIVEN.get();
    let result = call();
    (result, GIVEN.get() - before)
}

#[test]
fn a_message_takes_the_vector_that_is_returned() {
    let (mut client, mut server) = meet();
    for length in [0, 1, 64, 1024, 65536, 1 << 20] {
        let text = vec![b't'; length];
        let (token, blocks) = counted(|| client.wrap(&text).unwrap());
        assert_eq!((token.len(), blocks), (length + 60, 1));
        let (opened, blocks) = counted(|| server.unwrap(&token).unwrap());
        assert_eq!((opened.text, blocks), (text.clone(), 1));
        let (token, blocks) = counted(|| server.wrap_in_clear(&text).unwrap());
        assert_eq!((token.len(), blocks), (length + 28, 1));
        let (opened, blocks) = counted(|| client.unwrap(&token).unwrap());
        assert_eq!((opened.text, blocks), (text.clone(), 1));
        let (mic, blocks) = counted(|| client.mic(&text).unwrap());
        assert_eq!((mic.len(), blocks), (28, 1));
        let ((), blocks) = counted(|| server.verify(&mic, &text).unwrap());
        assert_eq!(blocks, 0);
    }
}
