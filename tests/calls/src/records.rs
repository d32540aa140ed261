//! Lists of calls as words, eight a call: its letter's ASCII code, how many numbers it has, five
//! numbers of which it has the first ones, and the length of the second run that it asks for.

use crate::{Call, Random, LETTERS};

/// The call of a record, and the length of its second run. A count above five means all five.
pub fn read(record: &[u32; 8]) -> (Call, usize) {
    let [letter, count, numbers @ .., room] = record;
    let count = numbers.len().min(*count as usize);
    let letter = char::from_u32(*letter).unwrap_or('-');
    (Call::of(letter, &numbers[..count]), *room as usize)
}

/// The records of a list, with any numbers where a call has none, and at times a few words left over.
pub fn written(random: &mut Random, calls: &[Call]) -> Vec<u32> {
    let mut words = Vec::new();
    for call in calls {
        words.extend(match call {
            Call::Malformed => no_call(random),
            call => record(random, call),
        });
    }
    let left = random.pick(&[0, 0, 1, 7]);
    words.extend(random.words(left));
    words
}

fn record(random: &mut Random, call: &Call) -> [u32; 8] {
    let numbers = call.numbers();
    let mut record = [0; 8].map(|_| random.pick(&[0, 1, 7, u32::MAX]));
    record[0] = call.letter().into();
    record[1] = match numbers.len() {
        5 => random.pick(&[5, 5, 6, u32::MAX]),
        count => count as u32,
    };
    record[2..2 + numbers.len()].copy_from_slice(&numbers);
    record[7] = random.pick(&[0, 7, 13, 30, 512, u32::MAX]);
    record
}

/// A record with a letter of no call, or with a count of no call.
fn no_call(random: &mut Random) -> [u32; 8] {
    let mut record = [0; 8].map(|_| random.pick(&[1, 2, 3, 5, 7]));
    record[0] = match random.one_in(2) {
        true => random.pick(&LETTERS).into(),
        false => random.pick(&[0, 'B'.into(), 'm'.into(), 256 + u32::from('O'), u32::MAX]),
    };
    record[1] = random.pick(&[0, 4]);
    record
}

#[cfg(test)]
mod tests {
    use super::*;

    #[test]
    fn written_and_read() {
        let mut random = Random::new(0);
        let numbers = [7, 5, 14, 1, 0];
        for letter in LETTERS {
            for count in 0..=5 {
                let call = Call::of(letter, &numbers[..count]);
                for _ in 0..100 {
                    let words = written(&mut random, &[call, call]);
                    let (records, left) = words.as_chunks();
                    assert!(records.len() == 2 && left.len() < 8);
                    for record in records {
                        assert_eq!(read(record).0, call, "{record:?}");
                    }
                }
            }
        }
    }
}
