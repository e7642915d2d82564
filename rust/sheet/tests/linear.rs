//! The parser's time grows with the text and not faster: sixteen times the text takes less than
//! sixty-four times as long, where a quadratic parser would take two hundred and fifty-six times.

use diverplume_sheet::File;
use std::time::Duration;

#[repr(C)]
struct Timespec {
    seconds: i64,
    nanoseconds: i64,
}

extern "C" {
    fn clock_gettime(clock: i32, time: *mut Timespec) -> i32;
}

/// The processor's time of this thread, which does not grow while other programs run.
fn spent() -> Duration {
    const THREAD_CPUTIME: i32 = 3;
    let mut time = Timespec { seconds: 0, nanoseconds: 0 };
    // SAFETY: `time` has the layout of C's `timespec` and lives through the call.
    assert_eq!(unsafe { clock_gettime(THREAD_CPUTIME, &raw mut time) }, 0);
    let part = |part: i64| u64::try_from(part).expect("a time that is not negative");
    Duration::from_secs(part(time.seconds)) + Duration::from_nanos(part(time.nanoseconds))
}

/// The least time of some runs.
fn time(text: &[u8]) -> Duration {
    let run = || {
        let start = spent();
        File::parse(text).expect("the text is Standard ML");
        spent().saturating_sub(start)
    };
    (0..5).map(|_| run()).min().expect("five runs")
}

fn is_linear(name: &str, count: usize, text: impl Fn(usize) -> Vec<u8>) {
    let (short, long) = (time(&text(count)), time(&text(16 * count)));
    assert!(long < 64 * short, "{name}: {short:?}, sixteen times the text {long:?}");
}

fn between(head: &str, item: &str, count: usize, tail: &str) -> Vec<u8> {
    [head, &item.repeat(count), tail].concat().into_bytes()
}

#[test]
fn time_grows_with_the_text() {
    is_linear("declarations", 500, |count| between("", "val x = f 1\n", count, ""));
    is_linear("operators", 500, |count| between("val x = 1", " + 2 * 3 :: y", count, ""));
    is_linear("applications", 500, |count| between("val x = f", " (g 1)", count, ""));
    is_linear("a list", 500, |count| between("val x = [1", ", 2", count, "]"));
    is_linear("cases", 500, |count| between("fun f 0 = 1", " | f n = n", count, ""));
    is_linear("a sequence", 500, |count| between("val x = (a", "; b", count, ")"));
    is_linear("fixities", 500, |count| between("", "infix 6 ++ val x = a ++ b\n", count, ""));
    // A token has at most 32,768 bytes.
    is_linear("a comment", 150, |count| between("(*", " (* why *) ", count, "*) val x = 1"));
    is_linear("types", 500, |count| between("type t = a", " * b list", count, ""));
    is_linear("structures", 500, |count| {
        between("", "structure S = struct val x = 1 end\n", count, "")
    });
}
