//! The calls of several archives timed in turn: the same sheets and texts, the same process.
//!
//! A loop of a few instructions takes up to 1.6 times as long at another place in memory. So each
//! archive is there several times, with its code at other places.

use crate::time::{call, turns, Plan, Times};
use crate::{sheets, texts, TAB_SIZE};
use decode::decode;
use diverplume::record::limit;
use sml_syntax::ast::AstNode as _;
use std::ffi::{c_char, c_int, c_void, CStr, CString};
use std::mem::transmute;
use std::time::{Duration, Instant};

/// Turns are short and many, so that some of each object meet a quiet machine.
const TURN: Duration = Duration::from_millis(1);
const MOST_TURNS: usize = 101;

/// Calls that take long have as many turns as this time allows, and no fewer than these.
const MOST: Duration = Duration::from_secs(4);
const FEWEST_TURNS: usize = 7;

/// Archives that were made shared objects.
pub struct Archives {
    /// The objects of the first archive, then those of the next.
    objects: Vec<Object>,
    /// How many objects each archive has.
    places: usize,
}

impl Archives {
    /// The archives of these objects.
    ///
    /// # Errors
    ///
    /// What an object lacks.
    pub fn open(places: usize, paths: &[&str]) -> Result<Self, String> {
        let objects = paths.iter().map(|path| Object::open(path)).collect::<Result<_, _>>()?;
        Ok(Self { objects, places })
    }

    /// Times the calls on the sheets and texts whose names have the word, and prints the times.
    pub fn measure(&self, only: &str) {
        println!(
            "microseconds, the least of {FEWEST_TURNS} to {MOST_TURNS} turns, at the best place"
        );
        println!("ratios are to the first archive: at the best places, of the means over places");
        for named in sheets::all().iter().filter(|named| named.name.contains(only)) {
            let (text, record) = (&named.sheet.text[..], &named.sheet.record[..]);
            let root = decode(text, record).expect("an accepted sheet");
            let last = root.syntax().token_count() as u64 - 1;
            println!("{}", named.name);
            self.row("  get", |object, left| object.get(text, record, left));
            self.row("  check", |object, left| object.check(text, record, left));
            self.row("  comment_above", |object, left| {
                object.comment_above(text, record, last, left);
            });
        }
        for named in texts::all(limit::TEXT) {
            let name = format!("scan-{}", named.name);
            if name.contains(only) {
                self.row(&name, |object, left| object.scan(&named.text, left));
            }
        }
    }

    /// Times one call of all archives and prints its line.
    fn row(&self, name: &str, run: impl Fn(&Object, &mut Left)) {
        let mut left: Vec<_> = self.objects.iter().map(|_| Left::new()).collect();
        let start = Instant::now();
        for (object, left) in self.objects.iter().zip(&mut left) {
            run(object, left);
        }
        let fit = MOST.as_nanos() / start.elapsed().as_nanos().max(1);
        let repeats = fit.clamp(FEWEST_TURNS as u128, MOST_TURNS as u128) as usize;
        print!("{name:24}");
        if left.iter().any(|each| !each.is_accepted() || each.output != left[0].output) {
            println!("  not timed: refused, or the outputs differ");
            return;
        }
        let run = &run;
        let calls = self.objects.iter().zip(&mut left);
        let mut calls: Vec<_> =
            calls.map(|(object, left)| call(move || run(object, left))).collect();
        let taken = turns(&mut calls, Plan { repeats, turn: TURN }).into_iter();
        let least: Vec<_> = taken.map(|times| Times::of(&times).least).collect();
        print_times(&least.chunks(self.places).collect::<Vec<_>>());
    }
}

/// Prints the time of each archive from those at its places.
fn print_times(archives: &[&[f64]]) {
    let best = |places: &[f64]| places.iter().copied().fold(f64::INFINITY, f64::min);
    let mean = |places: &[f64]| places.iter().sum::<f64>() / places.len() as f64;
    let first = archives[0];
    print!(" {:10.2}", best(first) / 1_000.0);
    for places in &archives[1..] {
        let ratios = [best(places) / best(first), mean(places) / mean(first)];
        print!(" {:10.2} {:5.2} {:5.2}", best(places) / 1_000.0, ratios[0], ratios[1]);
    }
    println!();
}

/// What a call leaves: the numbers of its answer, and its output.
struct Left {
    answer: [u64; Self::NUMBERS],
    output: Vec<u8>,
}

impl Left {
    /// More numbers than any answer has.
    const NUMBERS: usize = 128;

    /// As long as any formatted text that is timed.
    const OUTPUT: usize = 1 << 19;

    fn new() -> Self {
        Self { answer: [u64::MAX; Self::NUMBERS], output: vec![0; Self::OUTPUT] }
    }

    fn is_accepted(&self) -> bool {
        self.answer[0] == 0
    }
}

// Slices as in include/diverplume.h, an answer by its pointer.
type Check = unsafe extern "C" fn(*const u8, usize, *const u8, usize, *mut u64);
type Get = unsafe extern "C" fn(*const u8, usize, *const u8, usize, u32, *mut u8, usize, *mut u64);
type CommentAbove = unsafe extern "C" fn(*const u8, usize, *const u8, usize, u64, *mut u64);
type Scan = unsafe extern "C" fn(*const u8, usize, *mut u8, usize, *mut u64);

// Of the C library.
extern "C" {
    fn dlopen(path: *const c_char, mode: c_int) -> *mut c_void;
    fn dlsym(object: *mut c_void, name: *const c_char) -> *mut c_void;
}

/// `RTLD_NOW`; the names stay the object's own.
const MODE: c_int = 2;

/// The calls of a shared object.
struct Object {
    check: Check,
    get: Get,
    comment_above: CommentAbove,
    scan: Scan,
}

impl Object {
    fn open(path: &str) -> Result<Self, String> {
        let name = CString::new(path).map_err(|error| format!("{path:?}: {error}"))?;
        // SAFETY: the name ends in 0, and nothing of an archive runs as it is loaded.
        let object = unsafe { dlopen(name.as_ptr(), MODE) };
        if object.is_null() {
            return Err(format!("{path} cannot be loaded"));
        }
        // SAFETY: the calls have these parameters.
        unsafe {
            Ok(Self {
                check: transmute::<*mut c_void, Check>(symbol(object, c"diverplume_check")?),
                get: transmute::<*mut c_void, Get>(symbol(object, c"diverplume_get")?),
                comment_above: transmute::<*mut c_void, CommentAbove>(symbol(
                    object,
                    c"diverplume_comment_above",
                )?),
                scan: transmute::<*mut c_void, Scan>(symbol(object, c"diverplume_scan")?),
            })
        }
    }

    fn check(&self, text: &[u8], record: &[u8], left: &mut Left) {
        let (text_at, record_at) = (text.as_ptr(), record.as_ptr());
        let answer = left.answer.as_mut_ptr();
        // SAFETY: each pointer comes from a slice of the length passed with it.
        unsafe { (self.check)(text_at, text.len(), record_at, record.len(), answer) };
    }

    fn get(&self, text: &[u8], record: &[u8], left: &mut Left) {
        let (text_at, record_at) = (text.as_ptr(), record.as_ptr());
        let Left { answer, output } = left;
        let (to, room, answer) = (output.as_mut_ptr(), output.len(), answer.as_mut_ptr());
        // SAFETY: each pointer comes from a slice of the length passed with it.
        unsafe {
            (self.get)(text_at, text.len(), record_at, record.len(), TAB_SIZE, to, room, answer);
        }
    }

    fn comment_above(&self, text: &[u8], record: &[u8], token: u64, left: &mut Left) {
        let (text_at, record_at) = (text.as_ptr(), record.as_ptr());
        let answer = left.answer.as_mut_ptr();
        // SAFETY: each pointer comes from a slice of the length passed with it.
        unsafe {
            (self.comment_above)(text_at, text.len(), record_at, record.len(), token, answer)
        };
    }

    fn scan(&self, text: &[u8], left: &mut Left) {
        let Left { answer, output } = left;
        let (to, room, answer) = (output.as_mut_ptr(), output.len(), answer.as_mut_ptr());
        // SAFETY: each pointer comes from a slice of the length passed with it.
        unsafe { (self.scan)(text.as_ptr(), text.len(), to, room, answer) };
    }
}

/// Where a call of a loaded object stands.
fn symbol(object: *mut c_void, name: &CStr) -> Result<*mut c_void, String> {
    // SAFETY: the name ends in 0.
    let at = unsafe { dlsym(object, name.as_ptr()) };
    if at.is_null() {
        return Err(format!("an object has no {}", name.to_string_lossy()));
    }
    Ok(at)
}
