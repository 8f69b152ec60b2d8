//! No call of the tuned version allocates, and none of the library.

use bench::subject::Subject;
use bench::times::{all_cases, Logs};
use bench::tuned::Tuned;
use std::alloc::{GlobalAlloc, Layout, System};
use std::cell::Cell;

struct Counting;

thread_local! {
    static ALLOCATED: Cell<u64> = const { Cell::new(0) };
}

// SAFETY: every call is handed on to the system's allocator
unsafe impl GlobalAlloc for Counting {
    unsafe fn alloc(&self, layout: Layout) -> *mut u8 {
        // a thread that ends has no count any more
        let _ = ALLOCATED.try_with(|n| n.set(n.get() + 1));
        System.alloc(layout)
    }

    unsafe fn dealloc(&self, memory: *mut u8, layout: Layout) {
        System.dealloc(memory, layout)
    }
}

#[global_allocator]
static COUNTING: Counting = Counting;

fn none_allocates<S: Subject>(mut subject: S) {
    for mut case in all_cases::<S>(Logs::Full) {
        if let Some(row) = &case.lent {
            subject.lend(row);
        }
        let before = ALLOCATED.get();
        let answer = (case.call)(&mut subject);
        assert_eq!(ALLOCATED.get(), before, "{} allocates", case.name);
        assert_eq!(answer, 0, "{} is refused", case.name);
    }
}

#[test]
fn no_call_of_the_tuned_version_allocates() {
    none_allocates(Tuned::new());
}

#[cfg(all(feature = "library", not(feature = "emulated")))]
#[test]
fn no_call_of_the_library_allocates() {
    none_allocates(bench::library::Library::new());
}
