//! Refuses each allocation of a run in turn: the run ends as with memory, or with 6 and nothing written. The rows are those
//! of the file that PYC_ROWS names, or of `f("é\n" + 1.e400)`, which is no JSON, and of `f(a + 1)`.

use py_base::{List, Text};
use py_devices::{CleanSink, CleanSource};
use py_run::{Status, run};
use pyc::Reserving;
use rshim::alloc::Global;
use std::alloc::{GlobalAlloc, Layout, System};
use std::error::Error;
use std::ptr;
use std::sync::atomic::{AtomicUsize, Ordering};

/// An allocator that counts what it is asked for and refuses from one number up to another.
struct Counting {
    asked: AtomicUsize,
    first: AtomicUsize,
    last: AtomicUsize,
}

const NEVER: usize = usize::MAX;

#[global_allocator]
static ALLOCATOR: Reserving<&Counting> = Reserving::over(&COUNTING);

static COUNTING: Counting =
    Counting { asked: AtomicUsize::new(0), first: AtomicUsize::new(NEVER), last: AtomicUsize::new(NEVER) };

impl Counting {
    fn is_refused(&self) -> bool {
        let number = self.asked.fetch_add(1, Ordering::Relaxed) + 1;
        self.first.load(Ordering::Relaxed) <= number && number <= self.last.load(Ordering::Relaxed)
    }

    /// Refuses from here on, while the code runs, the requests with these numbers; answers how many there were.
    fn refuse<T>(&self, first: usize, last: usize, code: impl FnOnce() -> T) -> (T, usize) {
        self.last.store(last, Ordering::Relaxed);
        self.asked.store(0, Ordering::Relaxed);
        self.first.store(first, Ordering::Relaxed);
        let given = code();
        self.first.store(NEVER, Ordering::Relaxed);
        (given, self.asked.load(Ordering::Relaxed))
    }
}

// SAFETY: it is the allocator of std, or refuses.
unsafe impl GlobalAlloc for &Counting {
    unsafe fn alloc(&self, layout: Layout) -> *mut u8 {
        if self.is_refused() {
            return ptr::null_mut();
        }
        // SAFETY: the caller's promise is handed on.
        unsafe { System.alloc(layout) }
    }

    unsafe fn dealloc(&self, place: *mut u8, layout: Layout) {
        // SAFETY: the caller's promise is handed on.
        unsafe { System.dealloc(place, layout) }
    }

    unsafe fn realloc(&self, place: *mut u8, layout: Layout, size: usize) -> *mut u8 {
        if self.is_refused() {
            return ptr::null_mut();
        }
        // SAFETY: the caller's promise is handed on.
        unsafe { System.realloc(place, layout, size) }
    }
}

/// How a run ended, and what it wrote on both sinks.
#[derive(PartialEq, Debug)]
struct Ended {
    status: u8,
    out: Vec<u8>,
    err: Vec<u8>,
}

/// Runs the words over these bytes while requests are refused, and says how many were asked.
fn ended(words: &[&str], data: &[u8], first: usize, last: usize) -> (Ended, usize) {
    let words: List<Text> = words.iter().map(|&word| Text::from(word)).collect();
    let mut source = CleanSource::new(data.to_vec().into());
    let mut out = CleanSink::new(vec![0; 1 << 20].into());
    let mut err = CleanSink::new(vec![0; 1 << 12].into());
    let (status, asked) = COUNTING.refuse(first, last, || run(Global, &words, &mut source, &mut out, &mut err).status as u8);
    (Ended { status, out: out.bytes().to_vec(), err: err.bytes().to_vec() }, asked)
}

/// Refuses each request of a run alone, and then each with all behind it. Answers how many there are.
fn refuse_each(words: &[&str], data: &[u8]) -> usize {
    let (wanted, asked) = ended(words, data, NEVER, NEVER);
    for number in 1..=asked {
        for last in [number, NEVER - 1] {
            let (got, _) = ended(words, data, number, last);
            if got.status == Status::Memory as u8 {
                assert!(got.out.is_empty() && got.err.is_empty(), "{words:?} {number}: written with 6");
            } else {
                assert_eq!(got, wanted, "{words:?} {number}");
                assert!(last == number, "{words:?} {number}: done without memory");
            }
        }
    }
    asked
}

const CALL: &[u8] = br#"[["Name",1,1,"f"],["Name",1,3,"a"],["int","1"],["Constant",1,7,2],["BinOp",1,3,1,"Add",3],["Call",1,1,0,[4],[]],["Expr",1,1,5],["Module",[6]]]"#;

// A text with escapes, which the parser copies, and behind it a number that is none.
const NO_JSON: &[u8] = br#"[["str","\u00e9\n\u00e9\u00e9\u00e9\u00e9\u00e9"],["Constant",1,7,12345678901234567890123e400"#;

// The rows of `'é\n..'`.
const ESCAPED: &[u8] = br#"[["str","\u00e9\n\u00e9\u00e9\u00e9\u00e9\u00e9\u00e9"],["Constant",1,7,0],["Expr",1,1,1],["Module",[2]]]"#;

/// One test alone counts requests, since all threads share an allocator.
#[test]
fn each_allocation_that_is_refused_is_told() -> Result<(), Box<dyn Error>> {
    let mut inputs = vec![CALL.to_vec(), ESCAPED.to_vec(), NO_JSON.to_vec()];
    if let Some(file) = std::env::var_os("PYC_ROWS") {
        inputs = vec![std::fs::read(file)?];
    }
    let mut count = 0;
    for rows in &inputs {
        for words in [
            ["exec", "0", "m.py"].as_slice(),
            &["pack", "exec", "0", "m.py"],
            &["step", "exec", "0", "m.py", "g1,g1,g1,r"],
            &["names", "m.py"],
        ] {
            count += refuse_each(words, rows);
        }
        let (file, _) = ended(&["pack", "exec", "0", "m.py"], rows, NEVER, NEVER);
        count += refuse_each(&["unpack"], &file.out);
    }
    println!("{count} allocations were refused, each alone and with all behind it");
    Ok(())
}
