//! The deepest stack of a call: a thread runs it on memory that was painted, and the paint that is gone is looked for.

use super::cases::all;
use super::scenes::Logs;
use crate::subject::Subject;
use std::ffi::{c_int, c_void};
use std::ptr;

/// The thread's stack, and what of it is left unpainted below the place from which a call is made.
const SIZE: usize = 1 << 20;
const CLEAR: usize = 256;
const PAINT: u64 = 0x5a5a_a5a5_c3c3_3c3c;

/// As large as pthread_attr_t, or larger.
#[repr(C, align(16))]
struct Attributes([u64; 16]);

extern "C" {
    fn pthread_attr_init(attributes: *mut Attributes) -> c_int;
    fn pthread_attr_setstack(attributes: *mut Attributes, stack: *mut c_void, size: usize) -> c_int;
    fn pthread_attr_destroy(attributes: *mut Attributes) -> c_int;
    fn pthread_create(
        thread: *mut usize,
        attributes: *const Attributes,
        run: extern "C" fn(*mut c_void) -> *mut c_void,
        argument: *mut c_void,
    ) -> c_int;
    fn pthread_join(thread: usize, result: *mut *mut c_void) -> c_int;
}

/// What the thread runs, where its stack begins, and how deep it went.
struct Painted<'a> {
    call: &'a mut dyn FnMut(),
    stack: *mut u64,
    deepest: usize,
}

/// The words from the stack's end up to just below the caller's frame.
#[inline(never)]
fn words_below(stack: *mut u64, here: usize) -> usize {
    (here - CLEAR - stack as usize) / size_of::<u64>()
}

extern "C" fn run_painted(argument: *mut c_void) -> *mut c_void {
    // SAFETY: `deepest` hands on a Painted that outlives the thread, and nobody else reads it meanwhile
    let painted = unsafe { &mut *argument.cast::<Painted>() };
    let mark = 0u8;
    let here = ptr::from_ref(&mark) as usize;
    let words = words_below(painted.stack, here);
    for word in 0..words {
        // SAFETY: the word lies in the thread's own memory, below every frame that is in use
        unsafe { painted.stack.add(word).write_volatile(PAINT) };
    }
    (painted.call)();
    let mut word = 0;
    // SAFETY: as above
    while word < words && unsafe { painted.stack.add(word).read_volatile() } == PAINT {
        word += 1;
    }
    painted.deepest = here - (painted.stack as usize + word * size_of::<u64>());
    ptr::null_mut()
}

/// How many bytes of stack a call takes, and at most as many more as were left clear.
pub fn deepest(call: &mut dyn FnMut()) -> usize {
    let mut memory: Vec<[u64; 8]> = vec![[0; 8]; SIZE / 64];
    let mut painted = Painted {
        call,
        stack: memory.as_mut_ptr().cast(),
        deepest: 0,
    };
    let mut attributes = Attributes([0; 16]);
    let mut thread = 0;
    // SAFETY: the attributes are large enough, the stack is memory of our own that lives until the thread was joined
    let failed = unsafe {
        pthread_attr_init(&mut attributes)
            | pthread_attr_setstack(&mut attributes, painted.stack.cast(), SIZE)
            | pthread_create(
                &mut thread,
                &attributes,
                run_painted,
                ptr::from_mut(&mut painted).cast(),
            )
            | pthread_join(thread, ptr::null_mut())
            | pthread_attr_destroy(&mut attributes)
    };
    assert_eq!(failed, 0, "no thread on a stack of our own");
    painted.deepest
}

/// What a case took.
pub struct Stack {
    pub name: &'static str,
    pub size: Option<u64>,
    pub bytes: usize,
}

/// How many bytes of stack a call takes.
pub type Measure = fn(&mut dyn FnMut()) -> usize;

/// What each case takes beyond a call that does nothing.
pub fn stacks<S: Subject>(subject: &mut S, deepest: Measure) -> Vec<Stack> {
    let nothing = deepest(&mut || ());
    let taken = all::<S>(Logs::Short).into_iter().map(|mut case| {
        if let Some(row) = &case.lent {
            subject.lend(row);
        }
        let depth = deepest(&mut || {
            (case.call)(subject);
        });
        Stack {
            name: case.name,
            size: case.size,
            bytes: depth.saturating_sub(nothing),
        }
    });
    taken.collect()
}

#[cfg(test)]
mod tests {
    use super::*;
    use std::hint::black_box;

    #[inline(never)]
    fn deep<const N: usize>() {
        black_box([black_box(1u8); N]);
    }

    #[test]
    fn a_call_takes_what_its_frame_takes() {
        let nothing = deepest(&mut || ());
        let shallow = deepest(&mut || deep::<4_000>()) - nothing;
        let deeper = deepest(&mut || deep::<40_000>()) - nothing;
        assert!((3_700..12_500).contains(&shallow), "{shallow}");
        assert!((39_700..120_500).contains(&deeper), "{deeper}");
    }
}
