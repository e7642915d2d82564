//! Work on many files, on all processors.

use std::io::{self, IsTerminal as _, Write as _};
use std::num::NonZero;
use std::sync::atomic::{AtomicUsize, Ordering};
use std::sync::mpsc;
use std::thread;
use std::time::{Duration, Instant};

/// The stack of a thread: the deepest files need a part of it.
const STACK: usize = 8 << 20;

/// Does the work on each item and hands what comes of it to `done`, in the order of the items.
pub fn for_each<T: Sync, R: Send>(
    items: &[T],
    work: impl Fn(&T) -> R + Sync,
    mut done: impl FnMut(&T, R),
) {
    let processors = thread::available_parallelism().map_or(1, NonZero::get);
    let next = AtomicUsize::new(0);
    let (sender, receiver) = mpsc::channel();
    thread::scope(|scope| {
        for _ in 0..processors.min(items.len()) {
            let sender = sender.clone();
            let (next, work) = (&next, &work);
            let each = move || {
                while let Some((at, item)) = next_item(items, next) {
                    if sender.send((at, work(item))).is_err() {
                        break;
                    }
                }
            };
            thread::Builder::new().stack_size(STACK).spawn_scoped(scope, each).expect("a thread");
        }
        drop(sender);
        let mut waiting: Vec<Option<R>> = items.iter().map(|_| None).collect();
        let mut at = 0;
        for (number, result) in receiver {
            waiting[number] = Some(result);
            while let Some(result) = waiting.get_mut(at).and_then(Option::take) {
                done(&items[at], result);
                at += 1;
            }
        }
    });
}

fn next_item<'a, T>(items: &'a [T], next: &AtomicUsize) -> Option<(usize, &'a T)> {
    let at = next.fetch_add(1, Ordering::Relaxed);
    items.get(at).map(|item| (at, item))
}

/// How far the work is, on a terminal.
pub struct Progress {
    count: usize,
    done: usize,
    shown: Option<Instant>,
    is_on: bool,
}

impl Progress {
    const BETWEEN: Duration = Duration::from_millis(100);

    pub fn new(count: usize, is_quiet: bool) -> Self {
        let is_on = !is_quiet && count > 1 && io::stderr().is_terminal();
        Self { count, done: 0, shown: None, is_on }
    }

    /// One more is done.
    pub fn step(&mut self) {
        self.done += 1;
        if self.is_on && self.shown.is_none_or(|shown| shown.elapsed() >= Self::BETWEEN) {
            eprint!("\r{}/{} files", self.done, self.count);
            // Where nothing can be shown nothing is lost.
            let _ = io::stderr().flush();
            self.shown = Some(Instant::now());
        }
    }

    /// Takes the line away, before another is written.
    pub fn clear(&mut self) {
        if self.is_on && self.shown.take().is_some() {
            eprint!("\r\x1b[K");
        }
    }
}
