//! Numbered work on several threads.

use std::num::NonZeroUsize;
use std::ops::AddAssign;
use std::sync::atomic::{AtomicBool, AtomicU64, Ordering};
use std::thread;

/// Does the items 0 to `count` - 1 on as many threads as the machine has processors and adds up what
/// they give. The sum depends on the items alone.
///
/// # Errors
///
/// The error of an item: of those found before the threads stopped, the first.
///
/// # Panics
///
/// Where a thread panics.
pub fn in_parallel<T, E>(count: u64, item: impl Fn(u64) -> Result<T, E> + Sync) -> Result<T, E>
where
    T: AddAssign + Default + Send,
    E: Send,
{
    let (next, stop) = (AtomicU64::new(0), AtomicBool::new(false));
    let threads = thread::available_parallelism().map_or(1, NonZeroUsize::get);
    let (mut sum, mut failed) = (T::default(), Vec::new());
    thread::scope(|scope| {
        let work = || share(count, &item, &next, &stop);
        let started: Vec<_> = (0..threads).map(|_| scope.spawn(work)).collect();
        for thread in started {
            match thread.join().expect("no thread panics") {
                Ok(part) => sum += part,
                Err(found) => failed.push(found),
            }
        }
    });
    match failed.into_iter().min_by_key(|&(index, _)| index) {
        None => Ok(sum),
        Some((_, first)) => Err(first),
    }
}

/// What one thread does: the next item that none has taken, until there is none left.
fn share<T: AddAssign + Default, E>(
    count: u64,
    item: &impl Fn(u64) -> Result<T, E>,
    next: &AtomicU64,
    stop: &AtomicBool,
) -> Result<T, (u64, E)> {
    let mut sum = T::default();
    while !stop.load(Ordering::Relaxed) {
        let index = next.fetch_add(1, Ordering::Relaxed);
        if index >= count {
            break;
        }
        match item(index) {
            Ok(part) => sum += part,
            Err(error) => {
                stop.store(true, Ordering::Relaxed);
                return Err((index, error));
            }
        }
    }
    Ok(sum)
}
