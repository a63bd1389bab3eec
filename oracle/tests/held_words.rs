//! The held notes of `advance_note_envelopes`: the sixteen bytes are two words of 64 bits, most
//! significant bit first. Note n is held exactly when word floor(n/64) has bit 63 - (n mod 64) set,
//! the lowest bit being 0.

use oracle::calls::{advance_note_envelopes, is_held};
use oracle::lists::PROGRAMS;
use oracle::lists::slices::{Slice, hash};
use oracle::random::Random;

const NOTES: usize = 128;
const DRAWS: usize = 10_000;

fn words(held: [u8; 16]) -> [u64; 2] {
    let (first, second) = held.split_at(8);
    [first, second].map(|half| u64::from_be_bytes(half.try_into().expect("8 bytes")))
}

fn has_bit(held: [u8; 16], n: usize) -> bool {
    let word = words(held)[n / 64];
    word & 1 << (63 - n % 64) != 0
}

/// A frame with no fade takes each level to 1 where its note is held, and to 0 elsewhere.
fn by_call(held: [u8; 16]) -> [bool; NOTES] {
    let (outcome, bank) = advance_note_envelopes([0.5; NOTES], held, 0.01, 0.0);
    assert_eq!(outcome, Ok(()));
    bank.map(|level| level == 1.0)
}

fn agrees(held: [u8; 16]) {
    let called = by_call(held);
    for (n, &called) in called.iter().enumerate() {
        let bit = has_bit(held, n);
        assert_eq!(is_held(held, n), bit, "{held:02x?}, note {n}");
        assert_eq!(called, bit, "{held:02x?}, note {n}");
    }
}

#[test]
fn any_sixteen_bytes() {
    let mut random = Random::new(102);
    for _ in 0..DRAWS {
        agrees(std::array::from_fn(|_| random.word() as u8));
    }
    agrees([0; 16]);
    agrees([0xff; 16]);
}

/// Each bit of the two words alone holds the one note that it stands for.
#[test]
fn each_bit_alone() {
    for n in 0..NOTES {
        let mut words = [0_u64; 2];
        words[n / 64] = 1 << (63 - n % 64);
        let bytes = words.map(u64::to_be_bytes).concat();
        let held = bytes.try_into().expect("16 bytes");
        agrees(held);
        assert_eq!(by_call(held), std::array::from_fn(|note| note == n));
    }
}

/// A call of the list `spectral_dsp`.
struct Listed {
    elapsed: f32,
    fade: f32,
    held: [u8; 16],
    levels: Slice,
}

impl Listed {
    /// From the words after the call's number, in the format that README.md states.
    fn new(words: &[u32]) -> Self {
        let float = |place: usize| f32::from_bits(words[place]);
        let held = words[2..6].iter().flat_map(|word| word.to_be_bytes());
        Self {
            elapsed: float(0),
            fade: float(1),
            held: held.collect::<Vec<u8>>().try_into().expect("16 bytes"),
            levels: Slice {
                length: words[6] as usize,
                seed: words[7],
                low: float(8),
                high: float(9),
                put: [(words[10], float(11)), (words[12], float(13))],
            },
        }
    }

    /// What the program would print of the bank with these notes held.
    fn hash(&self, held: [u8; 16]) -> u64 {
        let bank = self.levels.made().try_into().expect("128 levels");
        hash(&advance_note_envelopes(bank, held, self.elapsed, self.fade).1)
    }
}

/// The calls on note envelopes of the list `spectral_dsp`.
fn listed() -> Vec<Listed> {
    // The words of a record of each call, its number among them.
    const LENGTHS: [usize; 8] = [2, 4, 11, 6, 6, 5, 15, 11];
    let mut lists = PROGRAMS.iter().flat_map(|program| program.lists);
    let named = lists.find(|named| named.name == "spectral_dsp");
    let calls = (named.expect("a list of this name").write)().calls;
    let words = calls
        .chunks(4)
        .map(|word| word.try_into().expect("4 bytes"));
    let words: Vec<u32> = words.map(u32::from_be_bytes).collect();
    let (mut found, mut rest) = (Vec::new(), &words[..]);
    while let Some(&call) = rest.first() {
        let (record, after) = rest.split_at(LENGTHS[call as usize]);
        if call == 6 {
            found.push(Listed::new(&record[1..]));
        }
        rest = after;
    }
    found
}

/// Each order that somebody could take by mistake shows in at least twenty lines of the list.
#[test]
fn a_wrong_order_shows_in_the_list() {
    let orders: [fn([u64; 2]) -> [u64; 2]; 4] = [
        |words| words.map(u64::swap_bytes),
        |words| words.map(u64::reverse_bits),
        |words| words.map(|word| word.swap_bytes().reverse_bits()),
        |[first, second]| [second, first],
    ];
    for (number, order) in orders.into_iter().enumerate() {
        let turned = |held| order(words(held)).map(u64::to_be_bytes).concat();
        let shows = |call: &&Listed| {
            let turned = turned(call.held).try_into().expect("16 bytes");
            call.hash(call.held) != call.hash(turned)
        };
        let count = listed().iter().filter(shows).count();
        assert!(count >= 20, "order {number}: {count} lines");
    }
}
