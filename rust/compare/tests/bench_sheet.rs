//! The bench sheet's cases that a call answers (document 01, "Bench sheet"):
//! W10 to W12 and the line "Also", through both programs and both window calls.
//! Captures are in programs.rs, runs in conditions.rs.

use compare::calls::read_both;
use second::random::Random;
use second::Refusal;

/// The refusal with which a window is answered, lent this room.
fn refused(window: &[u8], room: usize) -> u8 {
    let [answer, other] = read_both(&mut Random::new(41), window, room);
    assert_eq!(answer, other);
    answer.map_err(Refusal::number).expect_err("a refusal")
}

#[test]
fn w10_to_w12() {
    let mut window = vec![0; 462];
    assert_eq!(refused(&window, 210), 7);
    window[461] = 1;
    assert_eq!(refused(&window, 210), 5);
    assert_eq!(refused(&[0; 461], 210), 1);
}

#[test]
fn also() {
    assert_eq!(refused(&[0; 463], 210), 1);
    assert_eq!(refused(&[], 210), 1);
    assert_eq!(refused(&[0; 1100], 830), 7);
    let mut window = [0; 462];
    window[100] = 2;
    assert_eq!(refused(&window, 209), 2);
}
