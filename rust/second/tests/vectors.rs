//! Appendix B of document 000: what its rows show.

use second::appendices::{appendix_b, Row};
use second::bits::{number_of, pack};
use second::conditions::{off_step, Course};
use second::encode::first_pair_skipping;
use second::read::{read_bits, scrambled_bits_of, user_bits_of, Asked};
use second::scrambling::{restore_first, scramble_by_top_bit};
use second::telegram::{b_of, cut, esb_of, make};
use second::Refusal::Number;
use second::{check, encode, Format, Reading};

/// The user bits that a row's telegram carries.
fn decoded(row: &Row) -> Vec<u8> {
    user_bits_of(&row.telegram_bits(), row.format()).unwrap()
}

/// The numbers of the rows that pass a test.
fn rows_where(test: impl Fn(&Row) -> bool) -> Vec<usize> {
    let rows = appendix_b();
    rows.iter()
        .filter(|row| test(row))
        .map(|row| row.number)
        .collect()
}

/// Is the first pair of the decoded block the printed one?
fn first_pair_is_printed(row: &Row, course: Course) -> bool {
    let printed = row.telegram_bits();
    let pair = first_pair_skipping(&decoded(row), row.format(), course).unwrap();
    let same = pair.telegram == printed;
    let format = row.format();
    assert_eq!(
        same,
        (pair.b, pair.esb) == (b_of(&printed, format), esb_of(&printed, format))
    );
    same
}

const ALL: [usize; 10] = [1, 2, 3, 4, 5, 6, 7, 8, 9, 10];

/// With condition 2 round the ring, and on the strip too.
#[test]
fn telegrams_are_proper() {
    assert_eq!(rows_where(|row| check(&row.telegram_bits()).is_ok()), ALL);
    for course in [Course::Strip, Course::Ring] {
        assert_eq!(
            rows_where(|row| off_step(&row.telegram_bits(), row.format(), course)),
            ALL
        );
    }
    assert_eq!(
        rows_where(|row| row.spare_bits().iter().all(|&bit| bit == 0)),
        ALL
    );
}

#[test]
fn telegrams_read() {
    for row in appendix_b() {
        let (format, telegram) = (row.format(), row.telegram_bits());
        for turn in 0..format.telegram_bits() {
            let flipped = turn % 2 == 1;
            let window = cut(&telegram, turn, format.window_bits(), flipped);
            let reading = Reading {
                format,
                b: b_of(&telegram, format),
                turn,
                flipped,
                esb: esb_of(&telegram, format),
            };
            for asked in [Asked::Proper, Asked::WellFormed] {
                let read = read_bits(&window, format, asked);
                assert_eq!(read, Ok((reading, decoded(&row))));
            }
        }
    }
}

#[test]
fn telegrams_are_made_again() {
    for row in appendix_b() {
        let (format, telegram) = (row.format(), row.telegram_bits());
        let (b, esb) = (b_of(&telegram, format), esb_of(&telegram, format));
        assert_eq!(make(&decoded(&row), b, esb, format), telegram);
    }
}

#[test]
fn feedback_is_the_scrambled_bit() {
    assert_eq!(
        rows_where(|row| decoded(row) == row.filled_user_bits()),
        [1, 2, 3, 4, 6, 7, 8, 9, 10]
    );
    let by_top_bit = |row: &Row| {
        let (format, telegram) = (row.format(), row.telegram_bits());
        let scrambled = scrambled_bits_of(&telegram, format).unwrap();
        restore_first(&scramble_by_top_bit(&scrambled, b_of(&telegram, format)))
    };
    assert!(rows_where(|row| by_top_bit(row) == row.filled_user_bits()).is_empty());
}

#[test]
fn printed_blocks_are_shortened() {
    assert_eq!(
        rows_where(|row| row.missing_bytes() > 0),
        [1, 2, 4, 6, 7, 8, 9, 10]
    );
}

#[test]
fn row_5_does_not_belong_together() {
    let row = &appendix_b()[4];
    let serial = |bits: &[u8]| number_of(&bits[40..58]);
    assert_eq!(serial(&row.filled_user_bits()), 8);
    assert_eq!(serial(&decoded(row)), 5);
    assert_ne!(pack(&decoded(row)), row.block);
}

/// Round the ring the first pair is the printed one in every row; on the strip,
/// as document 01 had it, in five.
#[test]
fn first_pairs() {
    assert_eq!(
        rows_where(|row| first_pair_is_printed(row, Course::Ring)),
        ALL
    );
    assert_eq!(
        rows_where(|row| first_pair_is_printed(row, Course::Strip)),
        [4, 6, 7, 9, 10]
    );
}

/// In the other five the first pair moved: an earlier one is proper on the
/// strip, and condition 2 alone bars it round the ring.
#[test]
fn first_pairs_that_moved() {
    let mut moved = Vec::new();
    for row in appendix_b() {
        let (user, format) = (decoded(&row), row.format());
        let [strip, ring] = [Course::Strip, Course::Ring]
            .map(|course| first_pair_skipping(&user, format, course).unwrap());
        println!(
            "row {}, {}: first pair on the strip {} {}, round the ring {} {}",
            row.number,
            format.name(),
            strip.b,
            strip.esb,
            ring.b,
            ring.esb
        );
        if strip != ring {
            assert!((strip.b, strip.esb) < (ring.b, ring.esb));
            assert_eq!(check(&strip.telegram), Err(Number(10)));
            assert_eq!(check(&ring.telegram), Ok(format));
            moved.push((row.number, format));
        }
    }
    let numbers: Vec<usize> = moved.iter().map(|&(number, _)| number).collect();
    assert_eq!(numbers, [1, 2, 3, 5, 8]);
    assert!(moved.contains(&(1, Format::Short)));
    assert!(moved.contains(&(8, Format::Long)));
}

/// The encoder gives every row's printed telegram.
#[test]
fn blocks_encode() {
    for row in appendix_b() {
        let (number, format, printed) = (row.number, row.format(), row.telegram_bits());
        let n = format.telegram_bits();
        let mut output = vec![9; n + 3];
        let encoded = encode(&decoded(&row), &mut output).unwrap();
        assert_eq!(encoded.format, format, "row {number}");
        assert_eq!(encoded.b, b_of(&printed, format), "row {number}");
        assert_eq!(encoded.esb, esb_of(&printed, format), "row {number}");
        assert_eq!(output.split_off(n), [9, 9, 9], "row {number}");
        assert_eq!(output, printed, "row {number}");
    }
}
