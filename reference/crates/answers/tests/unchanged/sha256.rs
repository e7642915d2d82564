//! SHA-256 (FIPS 180-4).

/// The hash in hexadecimal.
pub fn hex(bytes: &[u8]) -> String {
    let mut padded = bytes.to_vec();
    padded.push(0x80);
    padded.resize(padded.len().next_multiple_of(64), 0);
    if padded.len() - bytes.len() < 9 {
        padded.resize(padded.len() + 64, 0);
    }
    let end = padded.len();
    padded[end - 8..].copy_from_slice(&(8 * bytes.len() as u64).to_be_bytes());
    let constants = Constants::new();
    let state = padded.chunks(64).fold(constants.start, |state, block| {
        let next = rounds(state, &schedule(block), &constants.round);
        std::array::from_fn(|at| state[at].wrapping_add(next[at]))
    });
    state.iter().map(|word| format!("{word:08x}")).collect()
}

struct Constants {
    start: [u32; 8],
    round: [u32; 64],
}

impl Constants {
    /// The first 32 bits of the fractional parts of roots of the first primes: square roots for
    /// the start, cube roots for the rounds.
    fn new() -> Self {
        let primes: Vec<u128> =
            (2..312).filter(|n| (2..*n).all(|divisor| n % divisor != 0)).collect();
        Self {
            start: std::array::from_fn(|at| root_fraction(primes[at], 2)),
            round: std::array::from_fn(|at| root_fraction(primes[at], 3)),
        }
    }
}

/// The first 32 bits of the fractional part of the root of `n`: the low 32 bits of the greatest r
/// with r ^ degree at most n × 2 ^ (32 × degree).
fn root_fraction(n: u128, degree: u32) -> u32 {
    let target = n << (32 * degree);
    let mut root = 0_u128;
    for bit in (0..40).rev() {
        let larger = root | 1 << bit;
        if larger.pow(degree) <= target {
            root = larger;
        }
    }
    (root & 0xFFFF_FFFF) as u32
}

fn schedule(block: &[u8]) -> [u32; 64] {
    let mut words = [0; 64];
    for (word, bytes) in words.iter_mut().zip(block.chunks_exact(4)) {
        *word = u32::from_be_bytes(bytes.try_into().expect("four bytes"));
    }
    for at in 16..64 {
        let (early, late) = (words[at - 15], words[at - 2]);
        let s0 = early.rotate_right(7) ^ early.rotate_right(18) ^ (early >> 3);
        let s1 = late.rotate_right(17) ^ late.rotate_right(19) ^ (late >> 10);
        let sum: u32 = words[at - 16].wrapping_add(s0);
        words[at] = sum.wrapping_add(words[at - 7]).wrapping_add(s1);
    }
    words
}

fn rounds(state: [u32; 8], words: &[u32; 64], constants: &[u32; 64]) -> [u32; 8] {
    words.iter().zip(constants).fold(state, |[a, b, c, d, e, f, g, h], (word, constant)| {
        let s1 = e.rotate_right(6) ^ e.rotate_right(11) ^ e.rotate_right(25);
        let choice = (e & f) ^ (!e & g);
        let first = h.wrapping_add(s1).wrapping_add(choice);
        let first = first.wrapping_add(*constant).wrapping_add(*word);
        let s0 = a.rotate_right(2) ^ a.rotate_right(13) ^ a.rotate_right(22);
        let majority = (a & b) ^ (a & c) ^ (b & c);
        let second = s0.wrapping_add(majority);
        [first.wrapping_add(second), a, b, c, d.wrapping_add(first), e, f, g]
    })
}
