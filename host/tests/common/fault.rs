//! A fault in the archive ends the test process. This says first which case it was.

use super::Case;
use std::cell::Cell;
use std::ffi::c_int;
use std::sync::atomic::{AtomicBool, Ordering};
use std::sync::Once;

thread_local! {
    static NOW: Cell<Option<(Case, *const u32, usize)>> = const { Cell::new(None) };
}

/// `struct sigaction` of the C library on 64-bit Linux.
#[repr(C)]
struct Action {
    handler: extern "C" fn(c_int),
    mask: [u64; 16],
    flags: c_int,
    restorer: usize,
}

extern "C" {
    fn sigaction(signal: c_int, new: *const Action, old: *mut Action) -> c_int;
    fn write(file: c_int, bytes: *const u8, len: usize) -> isize;
    fn _exit(status: c_int) -> !;
}

const SA_ONSTACK: c_int = 0x0800_0000;
const SIGNALS: [c_int; 5] = [4, 6, 7, 8, 11]; // ill, abrt, bus, fpe, segv

/// Names the case whose calls come next on this thread.
pub fn watch(case: Case, book: &[u32]) {
    static ONCE: Once = Once::new();
    ONCE.call_once(|| {
        for signal in SIGNALS {
            let action = Action {
                handler: report,
                mask: [0; 16],
                flags: SA_ONSTACK,
                restorer: 0,
            };
            // SAFETY: the handler only reads a plain thread-local and writes to standard error.
            unsafe { sigaction(signal, &action, std::ptr::null_mut()) };
        }
    });
    NOW.set(Some((case, book.as_ptr(), book.len())));
}

fn say(text: &[u8]) {
    // SAFETY: the bytes are live.
    unsafe { write(2, text.as_ptr(), text.len()) };
}

fn say_number(mut n: u64) {
    let mut digits = [0; 20];
    let mut at = digits.len();
    loop {
        at -= 1;
        digits[at] = b'0' + (n % 10) as u8;
        n /= 10;
        if n == 0 {
            break;
        }
    }
    say(&digits[at..]);
}

extern "C" fn report(signal: c_int) {
    // One report is enough: a second thread waits for the first to end the process.
    static REPORTED: AtomicBool = AtomicBool::new(false);
    while REPORTED.swap(true, Ordering::Relaxed) {
        std::hint::spin_loop();
    }
    say(b"\nFAULT: signal ");
    say_number(signal as u64);
    if let Some((case, book, len)) = NOW.get() {
        say(b" in test '");
        say(case.test.as_bytes());
        say(b"', case ");
        say_number(case.case);
        say(b", JELVAKSNA_SEED=");
        say_number(case.seed);
        say(b", opening ");
        say_number(case.opening.into());
        say(b", book of ");
        say_number(len as u64);
        say(b" words [");
        for i in 0..len {
            // SAFETY: the book outlives the calls that are watched.
            say_number(u64::from(unsafe { *book.add(i) }));
            say(b" ");
        }
        say(b"]");
    }
    say(b"\n");
    // SAFETY: ends the process.
    unsafe { _exit(101) }
}
