//! A call outside a layer's contract panics before it reaches the layer.

use std::panic::catch_unwind;

fn refused(call: impl FnOnce() + std::panic::UnwindSafe) -> bool {
    catch_unwind(call).is_err()
}

#[test]
fn bytes_that_are_no_bits() {
    for value in 2..=u8::MAX {
        let bytes = [value; 10];
        assert!(refused(|| _ = layers::number(&bytes, 0, 1)));
        assert!(refused(|| layers::flip(&mut [value])));
        assert!(refused(|| layers::scramble(0, &bytes, &mut [0; 10])));
        assert!(refused(|| layers::descramble(0, &bytes, &mut [0; 10])));
        assert!(refused(|| layers::add_sum(&mut [value; 10])));
        assert!(refused(|| layers::remove_sum(&mut [value; 10])));
        for length in [1, 10, 462, 1100, 7501] {
            let mut capture = vec![0; length];
            capture[length - 1] = value;
            let capture = &capture;
            assert!(refused(|| _ = layers::first_place(capture)));
            assert!(refused(|| _ = layers::first_place_plain(capture)));
        }
        for long in [true, false] {
            assert!(refused(|| _ = layers::remainder_f(long, &bytes)));
            assert!(refused(|| layers::remainder_g(long, &bytes, &mut [0; 2])));
            assert!(refused(|| layers::remainder_fg(long, &bytes, &mut [0; 2])));
            assert!(refused(|| layers::check_bits(long, &bytes, &mut [0; 85])));
        }
    }
}

#[test]
fn outputs_that_are_too_short() {
    assert!(refused(|| layers::write_number(&mut [0; 9], 10, 0)));
    assert!(refused(|| layers::scramble(0, &[0; 10], &mut [0; 9])));
    assert!(refused(|| layers::descramble(0, &[0; 10], &mut [0; 9])));
    for long in [true, false] {
        assert!(refused(|| layers::remainder_g(long, &[], &mut [0])));
        assert!(refused(|| layers::remainder_fg(long, &[], &mut [0])));
        assert!(refused(|| layers::check_bits(long, &[], &mut [0; 84])));
    }
}

#[test]
fn numbers_out_of_range() {
    assert!(refused(|| _ = layers::number(&[0; 40], 0, 32)));
    assert!(refused(|| _ = layers::number(&[0; 40], 31, 10)));
    assert!(refused(|| _ = layers::number(&[0; 40], usize::MAX, 1)));
    assert!(refused(|| layers::write_number(&mut [0; 40], 33, 0)));
    assert!(refused(|| _ = layers::word(1024)));
    assert!(refused(|| layers::add_sum(&mut [0; 9])));
    assert!(refused(|| layers::add_sum(&mut [0; 1001])));
    assert!(refused(|| layers::remove_sum(&mut [0; 9])));
    assert!(refused(|| layers::remove_sum(&mut [0; 1001])));
    assert!(refused(|| _ = layers::turn(true, 1024)));
    assert!(refused(|| _ = layers::turn(false, 1024)));
}
