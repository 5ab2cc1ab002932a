//! Numbers as texts.

/// The two digits of each number below 100.
const PAIRS: [[u8; 2]; 100] = pairs();

const fn pairs() -> [[u8; 2]; 100] {
    let (mut pairs, mut number) = ([[b'0'; 2]; 100], 0);
    while number < pairs.len() {
        pairs[number] = [b'0' + number as u8 / 10, b'0' + number as u8 % 10];
        number += 1;
    }
    pairs
}

/// The most digits of a number.
const MOST: usize = 20;

/// Writes a number in digits, which are made two at a time from the last ones on. It takes no call: the room for the most digits is copied,
/// and cut.
pub fn write_number(to: &mut Vec<u8>, mut number: u64) {
    let mut digits = [0; 2 * MOST];
    let mut from = MOST;
    while number >= 100 {
        from -= 2;
        digits[from..from + 2].copy_from_slice(&PAIRS[(number % 100) as usize]);
        number /= 100;
    }
    from -= 2;
    digits[from..from + 2].copy_from_slice(&PAIRS[number as usize]);
    from += usize::from(number < 10);
    let end = to.len() + MOST - from;
    to.extend_from_slice(&digits[from..from + MOST]);
    to.truncate(end);
}
