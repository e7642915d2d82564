//! The port's scanner compared with the reference's.

use port::in_parallel;
use port::scan::{answer, compare, run, Compared, Difference};
use port::texts::{every, ESCAPES, TELLING};
use scan::corners::{all, limits, Expected};
use scan::{commands, kind, Token, WORDS};

fn same(compared: Result<Compared, Difference>) -> Compared {
    compared.unwrap_or_else(|difference| panic!("{difference}"))
}

/// The port's answer into an output that is long enough: the commands, or number and place.
fn answer_of(text: &[u8]) -> Result<Vec<u8>, (u8, u32)> {
    let mut output = vec![0; 4 * text.len().min(4_096)];
    let answer = answer(text, &mut output);
    output.truncate(answer.written);
    if answer.number == 0 {
        Ok(output)
    } else {
        Err((answer.number, answer.place))
    }
}

#[test]
fn corners() {
    for (text, expected) in all() {
        let expected = match expected {
            Expected::Tokens(texts) => {
                let token = |text: &&str| Token { kind: kind(text.as_bytes()), length: text.len() };
                Ok(commands(&texts.iter().map(token).collect::<Vec<_>>()))
            }
            Expected::Refused(number, place) => Err((number, place)),
        };
        assert_eq!(answer_of(text.as_bytes()), expected, "{text}");
        same(compare(text.as_bytes()));
    }
}

#[test]
fn at_the_limits() {
    let limits = limits();
    for limit in &limits {
        let counted = answer_of(&limit.text).map(|commands| commands.len() / 4);
        assert_eq!(counted, limit.answer, "{}", limit.name);
    }
    same(in_parallel(limits.len() as u64, |index| compare(&limits[index as usize].text)));
    for (text, room, number) in [(&[b';'; 4_096][..], 16_384, 0), (&[b';'; 4_096], 16_383, 8)] {
        assert_eq!(answer(text, &mut vec![0; room]).number, number, "{room} bytes");
    }
    assert_eq!(answer(&[b';'; 4_097], &mut []).number, 1, "1 is told before 8");
}

/// The telling bytes, up to five of them.
#[test]
fn every_short_text() {
    for text in (0..=2).flat_map(|length| every(&[], TELLING, length)) {
        same(compare(&text));
    }
    let heads: Vec<_> = every(&[], TELLING, 2).collect();
    let compared = in_parallel(heads.len() as u64, |index| {
        let head = &heads[index as usize];
        let mut compared = Compared::default();
        for text in (3..=5).flat_map(|length| every(head, TELLING, length)) {
            compared += compare(&text)?;
        }
        Ok(compared)
    });
    let compared = same(compared);
    println!("{compared}");
    assert_eq!(compared.texts, 25_u64.pow(5) + 25_u64.pow(4) + 25_u64.pow(3));
    assert_eq!(compared.calls.occurring(), [0, 8, 10, 11, 12]);
}

/// Escapes in strings and characters: five bytes between `"\` and `"`.
#[test]
fn every_escape() {
    let compared = in_parallel(2 * ESCAPES.len() as u64, |index| {
        let head = if index % 2 == 0 { "\"\\" } else { "#\"\\" };
        let head = [head.as_bytes(), &[ESCAPES[index as usize / 2]]].concat();
        let mut compared = Compared::default();
        for mut text in (0..=4).flat_map(|more| every(&head, ESCAPES, head.len() + more)) {
            text.push(b'"');
            compared += compare(&text)?;
        }
        Ok(compared)
    });
    println!("{}", same(compared));
}

/// What stands around a pair of bytes.
const FRAMES: [(&str, &str); 12] = [
    ("", ""),
    ("\"", "\""),
    ("\"\\", "\""),
    ("\"\\^", "\""),
    ("\"\\2", "\""),
    ("\"\\u00", "\""),
    ("#\"", "\""),
    ("#\"\\", "\""),
    ("(*", "*)"),
    ("a", "a"),
    ("0", "1"),
    ("1.5", "1"),
];

/// Every pair of bytes up to 128 in each frame.
#[test]
fn every_pair_of_bytes() {
    let compared = in_parallel(129, |first| {
        let mut compared = Compared::default();
        for (second, (before, behind)) in
            (0..=128).flat_map(|byte| FRAMES.map(|frame| (byte, frame)))
        {
            let pair = [u8::try_from(first).expect("a byte"), second];
            compared += compare(&[before.as_bytes(), &pair, behind.as_bytes()].concat())?;
        }
        Ok(compared)
    });
    assert_eq!(same(compared).texts, 129 * 129 * 12);
}

/// The words with a kind, each with a byte taken away, put in or replaced.
#[test]
fn words_and_what_is_near() {
    for word in WORDS.map(str::as_bytes) {
        same(compare(word));
        for at in 0..=word.len() {
            for byte in 33..127 {
                let (before, behind) = word.split_at(at);
                same(compare(&[before, &[byte], behind].concat()));
                if let [_, behind @ ..] = behind {
                    same(compare(&[before, behind].concat()));
                    same(compare(&[before, &[byte], behind].concat()));
                }
            }
        }
    }
}

#[test]
fn texts_of_a_seed() {
    let compared = same(run(12, 40_000));
    println!("{compared}");
    assert_eq!(compared.texts, 40_000);
    assert_eq!(compared.calls.occurring(), [0, 1, 2, 8, 10, 11, 12]);
}
