//! W1 to W12 and the "Also" line of document 01's bench sheet. The runs of
//! that line are in conditions.rs.

use second::bits::{bits_of, number_of};
use second::cyclic::remainder_by_f;
use second::format::{Format, FORMATS};
use second::scrambling::{replace_first, restore_first, scramble, scramble_by_top_bit, start};
use second::words::{number, word};
use second::Refusal::{self, Number};
use second::{encode, read, read_well_formed, search};

/// A list of zeros with its first bit 1.
fn first_bit(count: usize) -> Vec<u8> {
    let mut bits = vec![0; count];
    bits[0] = 1;
    bits
}

#[test]
fn w1_w2_entries() {
    assert_eq!(word(0), 0o0101);
    assert_eq!(word(1023), 0o3676);
}

#[test]
fn w3_w4_starts() {
    assert_eq!(start(1), 2_801_775_573);
    assert_eq!(start(4095), 1_413_323_819);
}

#[test]
fn w5_zeros_scrambled() {
    for format in FORMATS {
        let scrambled = scramble(&vec![0; format.user_bits()], 1);
        assert_eq!(scrambled[..10], [1, 1, 1, 1, 1, 1, 1, 1, 0, 1]);
        assert_eq!(number_of(&scrambled[..10]), 1021);
    }
    assert_eq!(word(1021), 0o3674);
    assert_eq!(number(0o3674), Some(1021));
}

#[test]
fn w6_one_bit_scrambled() {
    for format in FORMATS {
        let user = first_bit(format.user_bits());
        assert_eq!(number_of(&scramble(&user, 0)[..10]), 802);
        assert_eq!(number_of(&scramble_by_top_bit(&user, 0)[..10]), 512);
    }
}

#[test]
fn w7_first_block() {
    let middle = vec![0; 190];
    let user = [bits_of(1000, 10), middle, bits_of(100, 10)].concat();
    let replaced = replace_first(&user);
    assert_eq!(number_of(&replaced[..10]), 76);
    assert_eq!(replaced[10..], user[10..]);
    assert_eq!(number_of(&restore_first(&replaced)[..10]), 1000);
    assert_eq!(restore_first(&replaced), user);
}

#[test]
fn w8_w9_remainders() {
    assert_eq!(remainder_by_f(&first_bit(11), Format::Long), 735);
    assert_eq!(remainder_by_f(&first_bit(11), Format::Short), 427);
}

/// The refusal of both window calls, whose output is kept.
fn refused(window: &[u8], room: usize) -> Refusal {
    let mut output = vec![9; room];
    let refused = read(window, &mut output).unwrap_err();
    assert_eq!(read_well_formed(window, &mut output), Err(refused));
    assert_eq!(output, vec![9; room]);
    refused
}

#[test]
fn w10_w11_w12_windows() {
    assert_eq!(refused(&[0; 462], 830), Number(7));
    let mut window = [0; 462];
    window[461] = 1;
    assert_eq!(refused(&window, 830), Number(5));
    assert_eq!(refused(&[0; 461], 830), Number(1));
}

#[test]
fn also_windows() {
    assert_eq!(refused(&[0; 463], 830), Number(1));
    assert_eq!(refused(&[], 830), Number(1));
    assert_eq!(refused(&[0; 1100], 830), Number(7));
    for length in [462, 1100] {
        let mut window = vec![0; length];
        window[length / 2] = 2;
        assert_eq!(refused(&window, 209), Number(2));
    }
}

#[test]
fn also_blocks() {
    let mut output = [9; 340];
    for length in [0, 209, 211, 829, 831] {
        assert_eq!(encode(&vec![2; length], &mut output), Err(Number(1)));
    }
    for length in [210, 830] {
        let mut block = vec![0; length];
        assert_eq!(encode(&block, &mut output), Err(Number(3)));
        block[length - 1] = 2;
        assert_eq!(encode(&block, &mut output), Err(Number(2)));
    }
    assert_eq!(output, [9; 340]);
}

#[test]
fn also_captures() {
    assert_eq!(search(&[]), Err(Number(13)));
    assert_eq!(search(&vec![0; 7_500]), Err(Number(13)));
    assert_eq!(search(&vec![0; 7_501]), Err(Number(1)));
    assert_eq!(search(&vec![2; 7_501]), Err(Number(1)));
    assert_eq!(search(&vec![2; 7_500]), Err(Number(2)));
}
