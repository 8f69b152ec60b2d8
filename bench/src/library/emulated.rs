//! The library in a program of its own (driver/driver.c), for machines that cannot link it: a call is written to it with the
//! contents of its rows, and what it leaves in them is read back. `BENCH_DRIVER` has the words that start the program.

use std::cell::RefCell;
use std::io::{Read, Write};
use std::process::{Child, Command, Stdio};

/// As many bytes as the driver reads for a name.
const NAME: usize = 32;

/// A row as it is lent: its first place, how large one is, how many there are, and whether the call may write it.
struct Row {
    first: *mut u8,
    size: usize,
    places: usize,
    written: bool,
}

impl Row {
    fn bytes(&self) -> usize {
        self.size * self.places
    }

    fn contents(&self) -> &[u8] {
        // SAFETY: whoever made the call has lent so many places, and waits for it
        unsafe { std::slice::from_raw_parts(self.first, self.bytes()) }
    }

    /// What the driver has left in the row.
    fn take_back(&mut self, left: &[u8]) {
        if self.written {
            // SAFETY: as above, and the row was lent to be written
            unsafe { std::slice::from_raw_parts_mut(self.first, self.bytes()) }.copy_from_slice(left);
        } else {
            assert!(left == self.contents(), "a row that was lent to be read has changed");
        }
    }
}

/// A call, as its arguments come one after the other.
pub struct Call {
    name: &'static str,
    numbers: Vec<u64>,
    rows: Vec<Row>,
}

/// What an exported call takes: numbers, and pointers with a length behind each.
pub trait Argument {
    fn lend_to(self, call: &mut Call);
}

impl Argument for u64 {
    fn lend_to(self, call: &mut Call) {
        call.numbers.push(self);
    }
}

impl Argument for usize {
    fn lend_to(self, call: &mut Call) {
        call.rows.last_mut().expect("a length behind its pointer").places = self;
    }
}

impl<T> Argument for *mut T {
    fn lend_to(self, call: &mut Call) {
        call.rows.push(Row {
            first: self.cast(),
            size: size_of::<T>(),
            places: 0,
            written: true,
        });
    }
}

impl<T> Argument for *const T {
    fn lend_to(self, call: &mut Call) {
        self.cast_mut().lend_to(call);
        call.rows.last_mut().expect("just lent").written = false;
    }
}

/// The driver, whether stacks are measured, and what the last call took.
struct Driver {
    child: Child,
    measures: bool,
    stack: usize,
}

thread_local! {
    static DRIVER: RefCell<Driver> = RefCell::new(Driver::start());
}

fn whole_words(bytes: usize) -> usize {
    bytes.next_multiple_of(8)
}

impl Driver {
    fn start() -> Driver {
        let words = std::env::var("BENCH_DRIVER").expect("BENCH_DRIVER has the words that start the driver");
        let mut words = words.split_whitespace();
        let mut command = Command::new(words.next().expect("a program"));
        let started = command.args(words).stdin(Stdio::piped()).stdout(Stdio::piped()).spawn();
        Driver {
            child: started.unwrap_or_else(|why| panic!("the driver does not start: {why}")),
            measures: false,
            stack: 0,
        }
    }

    fn exchange(&mut self, request: &[u8], reply: &mut [u8]) -> std::io::Result<()> {
        self.child.stdin.as_mut().expect("a pipe").write_all(request)?;
        self.child.stdout.as_mut().expect("a pipe").read_exact(reply)
    }

    fn ask(&mut self, call: &mut Call) -> u8 {
        let request = call.request(self.measures);
        let rows: usize = call.rows.iter().map(|row| whole_words(row.bytes())).sum();
        let mut reply = vec![0; 16 + rows];
        if let Err(why) = self.exchange(&request, &mut reply) {
            panic!("the driver has gone in {}: {why}", call.name);
        }
        let (head, mut left) = reply.split_at(16);
        for row in &mut call.rows {
            row.take_back(&left[..row.bytes()]);
            left = &left[whole_words(row.bytes())..];
        }
        let [answer, stack] = [0, 8].map(|at| u64::from_le_bytes(*head[at..].first_chunk().expect("a word")));
        self.stack = stack as usize;
        u8::try_from(answer).expect("an answer of one byte")
    }
}

impl Drop for Driver {
    fn drop(&mut self) {
        // with its input at an end the driver ends by itself
        drop(self.child.stdin.take());
        let _ = self.child.wait();
    }
}

impl Call {
    pub fn new(name: &'static str) -> Call {
        Call {
            name,
            numbers: Vec::new(),
            rows: Vec::new(),
        }
    }

    pub fn lend(&mut self, argument: impl Argument) {
        argument.lend_to(self);
    }

    pub fn put(mut self) -> u8 {
        DRIVER.with_borrow_mut(|driver| driver.ask(&mut self))
    }

    /// The bytes that the driver reads.
    fn request(&self, measures: bool) -> Vec<u8> {
        let mut bytes = self.name.as_bytes().to_vec();
        bytes.resize(NAME, 0);
        let head = [u64::from(measures), self.numbers.len() as u64, self.rows.len() as u64];
        let sizes = self.rows.iter().flat_map(|row| [row.bytes() as u64, row.places as u64]);
        let words = head.into_iter().chain(self.numbers.iter().copied()).chain(sizes);
        bytes.extend(words.flat_map(u64::to_le_bytes));
        for row in &self.rows {
            bytes.extend(row.contents());
            bytes.resize(whole_words(bytes.len()), 0);
        }
        bytes
    }
}

/// How many bytes of the driver's stack the call takes that is made meanwhile.
pub fn deepest(call: &mut dyn FnMut()) -> usize {
    DRIVER.with_borrow_mut(|driver| {
        driver.measures = true;
        driver.stack = 0;
    });
    call();
    DRIVER.with_borrow_mut(|driver| {
        driver.measures = false;
        driver.stack
    })
}
