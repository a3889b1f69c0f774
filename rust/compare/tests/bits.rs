//! Bits: the test of bytes, numbers and flips.

use compare::written;
use second::bits;
use second::random::Random;

#[test]
fn all_bits_of_any_bytes() {
    let mut random = Random::new(11);
    for value in 0..=u8::MAX {
        assert_eq!(layers::all_bits(&[value]), bits::all_bits(&[value]));
        for length in 1..=130 {
            let mut bytes = random.bits(length);
            assert_eq!(layers::all_bits(&bytes), bits::all_bits(&bytes));
            bytes[random.below(length)] = value;
            assert_eq!(layers::all_bits(&bytes), bits::all_bits(&bytes));
        }
    }
    assert_eq!(layers::all_bits(&[]), bits::all_bits(&[]));
}

#[test]
fn all_bits_at_every_place() {
    for place in 0..1100 {
        for value in [0, 1, 2, 3, 128, 255] {
            let mut bytes = vec![1; 1100];
            bytes[place] = value;
            assert_eq!(layers::all_bits(&bytes), bits::all_bits(&bytes));
        }
    }
}

#[test]
fn all_bits_of_random_bytes() {
    let mut random = Random::new(12);
    for length in 0..=1100 {
        for bound in [2, 3, 256] {
            let bytes: Vec<u8> = (0..length).map(|_| random.below(bound) as u8).collect();
            assert_eq!(layers::all_bits(&bytes), bits::all_bits(&bytes));
        }
    }
}

#[test]
fn numbers_of_bits() {
    let mut random = Random::new(13);
    for length in 0..=120 {
        let list = random.bits(length);
        for at in 0..=length {
            for k in 0..=(length - at).min(31) {
                let second = bits::number_of(&list[at..at + k]);
                assert_eq!(u64::from(layers::number(&list, at, k)), second);
            }
        }
    }
}

#[test]
fn bits_of_numbers() {
    let mut random = Random::new(14);
    for k in 0..=32 {
        for i in 0..1000 {
            let x = match i {
                0 => 0,
                1 => u32::MAX,
                _ => random.number() as u32 >> random.below(32),
            };
            let ours = written(&mut random, k, |out| layers::write_number(out, k, x));
            assert_eq!(ours, bits::bits_of(x.into(), k));
        }
    }
}

#[test]
fn flips() {
    let mut random = Random::new(15);
    for length in 0..=1100 {
        let list = random.bits(length);
        let ours = written(&mut random, length, |out| {
            out[..length].copy_from_slice(&list);
            layers::flip(&mut out[..length]);
        });
        assert_eq!(ours, bits::flip(&list));
    }
}
