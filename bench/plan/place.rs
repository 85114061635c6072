// A place at which one thread sleeps until another wakes it: one word of the system's, as in the standard library's
// `park`, but with a timer where one is asked for.
use std::ffi::{c_int, c_long};
use std::ptr;
use std::sync::atomic::{AtomicU32, Ordering::SeqCst};

// How a thread sleeps.
#[derive(Clone, Copy)]
pub enum Sleep {
    // Until it is woken.
    Plain,
    // The same, with a timer that is set at each sleep and never goes off, as the kit's sleep has one.
    Timed,
}

// What the word is.
const AWAKE: u32 = 0;
const WOKEN: u32 = 1;
const ASLEEP: u32 = u32::MAX;

// The system's call and its two actions, on x86-64.
const FUTEX: c_long = 202;
const WAIT: c_int = 128;
const WAKE: c_int = 129;

extern "C" {
    fn syscall(number: c_long, ...) -> c_long;
}

#[repr(C)]
struct Span {
    seconds: c_long,
    nanoseconds: c_long,
}

static LONG: Span = Span { seconds: 1 << 30, nanoseconds: 0 };

pub struct Place {
    word: AtomicU32,
    sleep: Sleep,
}

impl Place {
    pub fn new(sleep: Sleep) -> Place {
        Place { word: AtomicU32::new(AWAKE), sleep }
    }

    // Sleeps until the place is woken; not at all where it was since it slept here last.
    pub fn sleep(&self) {
        if self.word.fetch_sub(1, SeqCst) == WOKEN {
            return;
        }
        let span = match self.sleep {
            Sleep::Plain => ptr::null(),
            Sleep::Timed => &raw const LONG,
        };
        loop {
            unsafe { syscall(FUTEX, &self.word, WAIT, ASLEEP, span) };
            if self.word.compare_exchange(WOKEN, AWAKE, SeqCst, SeqCst).is_ok() {
                return;
            }
        }
    }

    pub fn wake(&self) {
        if self.word.swap(WOKEN, SeqCst) == ASLEEP {
            unsafe { syscall(FUTEX, &self.word, WAKE, 1) };
        }
    }
}
