//! Readers that are wrong, written from pieces of the second program: the trials
//! find what they do not refuse, and find nothing of the right one written the same
//! way.

use damage::beyond::beyond;
use damage::bursts::{self, random_bursts, single_changes, Burst};
use damage::report::{report, Options};
use damage::scattered::{self, random_scattered};
use damage::slips::{self, random_slips, LIMITS};
use damage::telegrams::{appendix_b, Kind, Window};
use damage::trial::{changed, Call, Damage, Outputs, Trial, KEPT};
use second::bits::{flip, turn_right};
use second::cyclic::{remainder_by_f, remainder_by_g, turn_of_remainder};
use second::format::{Format, FORMATS};
use second::read::user_bits_of;
use second::telegram::{control, CONTROL};

/// A reader of well-formed telegrams, lent bits of a window's length. It asks the two
/// tests that it is given for 5 and 6, and goes on as it should.
fn read(
    window: &[u8],
    output: &mut [u8],
    ends_agree: fn(&[u8], Format) -> bool,
    divisible: fn(&[u8], Format) -> bool,
) -> u8 {
    let format = Format::of_window(window.len()).expect("the length of a window");
    if output.len() < format.user_bits() {
        return 3;
    }
    if !ends_agree(window, format) {
        return 5;
    }
    let turned = &window[..format.telegram_bits()];
    if !divisible(turned, format) {
        return 6;
    }
    let Some(turn) = turn_of_remainder(remainder_by_f(turned, format), format) else {
        return 7;
    };
    let mut telegram = turn_right(turned, turn);
    if control(&telegram, format)[0] == 1 {
        telegram = flip(&telegram);
    }
    if control(&telegram, format) != CONTROL {
        return 8;
    }
    let Ok(user) = user_bits_of(&telegram, format) else {
        return 9;
    };
    output[..user.len()].copy_from_slice(&user);
    0
}

/// The test of refusal 5: the last r bits are the first r.
fn ends_agree(window: &[u8], format: Format) -> bool {
    window[format.telegram_bits()..] == window[..format.extra_bits()]
}

/// The test of refusal 6: g divides the first n bits.
fn divisible(turned: &[u8], format: Format) -> bool {
    remainder_by_g(turned, format) == 0
}

const RIGHT: Call = Call {
    name: "right",
    read: |window, output| read(window, output, ends_agree, divisible),
};

/// Does not test the ends. It reads every window without damage.
const WITHOUT_ENDS: Call = Call {
    name: "without a test of the ends",
    read: |window, output| read(window, output, |_, _| true, divisible),
};

/// Divides one bit too few, all of the first n but the last. The remainder is 0
/// where that bit is 0, so that it reads every window without damage that has a 0
/// there, half of them, and refuses the others with 6. The more bits are left out
/// at the end, the fewer windows are read, since all of them must be 0. Bits left
/// out at the beginning would not show: a change there is one of the ends.
const LAST_LEFT_OUT: Call = Call {
    name: "the last bit not divided",
    read: |window, output| read(window, output, ends_agree, all_but_the_last_divisible),
};

fn all_but_the_last_divisible(turned: &[u8], format: Format) -> bool {
    divisible(&turned[..turned.len() - 1], format)
}

/// Takes any remainder by g. It reads every window without damage.
const ANY_REMAINDER: Call = Call {
    name: "any remainder",
    read: |window, output| read(window, output, ends_agree, |_, _| true),
};

/// Refuses as it should, and changes the last byte of the output all the same.
const OUTPUT_CHANGED: Call = Call {
    name: "the output changed",
    read: |window, output| {
        *output.last_mut().expect("room") ^= 1;
        (RIGHT.read)(window, output)
    },
};

/// A reader, and what it does not refuse as it should, lent room.
#[derive(Clone, Copy)]
struct Reader {
    call: Call,
    /// Whether it does not refuse a window with these places changed, by rising place,
    /// with 5 or 6.
    passes: fn(&Window, &[usize]) -> bool,
    /// Whether it does not refuse any slip with 5; the others it all does.
    passes_slips: bool,
}

/// The right one first.
const READERS: [Reader; 5] = [
    Reader {
        call: RIGHT,
        passes: |_, _| false,
        passes_slips: false,
    },
    Reader {
        call: WITHOUT_ENDS,
        passes: |window, places| places[0] >= window.format().telegram_bits(),
        passes_slips: true,
    },
    Reader {
        call: LAST_LEFT_OUT,
        passes: |window, places| {
            let last = window.format().telegram_bits() - 1;
            places == [last] && window.bits[last] == 0
        },
        passes_slips: false,
    },
    Reader {
        call: ANY_REMAINDER,
        passes: |window, places| {
            let damaged = changed(window, places.iter().copied());
            ends_agree(&damaged, window.format())
        },
        passes_slips: false,
    },
    Reader {
        call: OUTPUT_CHANGED,
        passes: |_, _| true,
        passes_slips: true,
    },
];

fn calls() -> [Call; READERS.len()] {
    READERS.map(|reader| reader.call)
}

/// How many damaged windows each reader passes.
type Passed = [usize; READERS.len()];

/// Gives a damaged window to the readers. The trial must find it of just those
/// that pass it.
fn give(
    trial: &mut Trial,
    passed: &mut Passed,
    window: &Window,
    damage: &impl Damage,
    passes: impl Fn(&Reader) -> bool,
) {
    trial.give(window, damage);
    for (i, reader) in READERS.iter().enumerate() {
        passed[i] += usize::from(passes(reader));
        assert_eq!(trial.tallies[i].other, passed[i], "{window}, {damage}");
    }
}

/// Gives a window with these places changed to the readers.
fn give_changed(
    trial: &mut Trial,
    passed: &mut Passed,
    window: &Window,
    damage: &impl Damage,
    places: &[usize],
) {
    let passes = |reader: &Reader| (reader.passes)(window, places);
    give(trial, passed, window, damage, passes);
}

fn give_burst(trial: &mut Trial, passed: &mut Passed, window: &Window, burst: &Burst) {
    let places: Vec<usize> = burst.places().collect();
    give_changed(trial, passed, window, burst, &places);
}

/// Prints what a trial found: of the right reader nothing, of as many wrong ones
/// something.
fn print(trial: &Trial, what: &str, wrong_ones: usize) {
    let numbers: Vec<String> = trial.refusals.iter().map(u8::to_string).collect();
    let numbers = numbers.join(" or ");
    println!("{} {what}, not refused with {numbers}:", trial.given);
    for (call, tally) in trial.calls.iter().zip(&trial.tallies) {
        println!("    {}: {}", call.name, tally.other);
    }
    let (right, wrong) = trial.tallies.split_first().expect("the right one");
    let found = wrong.iter().filter(|tally| tally.other > 0).count();
    assert_eq!((right.other, found), (0, wrong_ones));
    let mut found = trial.findings.iter().map(|finding| finding.call);
    assert!(found.len() == KEPT && found.all(|name| name != RIGHT.name));
    assert!(!trial.all_refused());
}

/// The wrong ones, all of which are found by changed bits.
const WRONG: usize = READERS.len() - 1;

#[test]
fn single_changes_find_them() {
    let (calls, mut passed) = (calls(), Passed::default());
    let mut trial = Trial::new(&calls, &bursts::REFUSALS, Outputs::Room, 90);
    single_changes(|window, burst| give_burst(&mut trial, &mut passed, window, burst));
    print(&trial, "single changes", WRONG);
}

#[test]
fn random_bursts_find_them() {
    for format in FORMATS {
        let (calls, mut passed) = (calls(), Passed::default());
        let mut trial = Trial::new(&calls, &bursts::REFUSALS, Outputs::Room, 91);
        random_bursts(format, 20_000, 92, |window, burst| {
            give_burst(&mut trial, &mut passed, window, burst);
        });
        let what = format!("random bursts of {} windows", format.name());
        print(&trial, &what, WRONG);
    }
}

#[test]
fn scattered_changes_find_them() {
    for format in FORMATS {
        let kind = Kind::Of(format);
        let (calls, mut passed) = (calls(), Passed::default());
        let mut trial = Trial::new(&calls, scattered::refusals(kind), Outputs::Room, 94);
        random_scattered(kind, 20_000, 95, |window, scattered| {
            let places = scattered.places();
            give_changed(&mut trial, &mut passed, window, scattered, places);
        });
        print(&trial, &format!("random changes of {kind}"), WRONG);
    }
}

/// All but those that test the ends as they should.
#[test]
fn slips_find_some() {
    for (format, limit) in FORMATS.into_iter().zip(LIMITS) {
        let (calls, mut passed) = (calls(), Passed::default());
        let mut trial = Trial::new(&calls, &slips::REFUSALS, Outputs::Room, 96);
        random_slips(format, limit, 20_000, 97, |window, slip| {
            let passes = |reader: &Reader| reader.passes_slips;
            give(&mut trial, &mut passed, window, slip, passes);
        });
        let (name, most) = (format.name(), limit.most);
        let what = format!("random slips of up to {most} bits in {name} windows");
        print(&trial, &what, 2);
    }
}

/// Refuses damage as it should, but before it looks at the length of the output.
const ROOM_LAST: Call = Call {
    name: "the output's length tested last",
    read: |window, _| (RIGHT.read)(window, &mut [0; 830]),
};

/// Outputs that are too short find it, and find nothing of the right one.
#[test]
fn short_outputs_find_it() {
    let calls = [RIGHT, ROOM_LAST];
    for format in FORMATS {
        let mut trial = Trial::new(&calls, &slips::REFUSALS, Outputs::SomeShort, 98);
        let mut without_room = 0;
        random_slips(format, LIMITS[0], 20_000, 99, |window, slip| {
            let answers = trial.give(window, slip);
            without_room += usize::from(!answers[0].room);
        });
        let what = format!(
            "random slips in {} windows, some outputs short",
            format.name()
        );
        print(&trial, &what, 1);
        assert_eq!(trial.tallies[1].other, without_room);
        assert!(without_room > 2_000);
    }
}

/// What the readers do with windows without damage.
#[test]
fn without_damage() {
    let (mut ones, mut zeros) = (0, 0);
    for format in FORMATS {
        random_bursts(format, 2_000, 93, |window, _| {
            let answers = calls().map(|call| call.answer(&window.bits, &[2; 830]).number);
            let last = window.bits[format.telegram_bits() - 1];
            assert_eq!(answers, [0, 0, 6 * last, 0, 0], "{window}");
            ones += usize::from(last);
            zeros += 1 - usize::from(last);
        });
    }
    println!("{zeros} windows without damage read where the last bit is not divided, {ones} not");
    assert!(ones > 1_000 && zeros > 1_000);
}

/// The text of the program would say so, with enough to do it again: of a reader
/// that does not test the ends, the first single change that it accepts is that of
/// the place n.
#[test]
fn what_is_written() {
    let mut text = Vec::new();
    let options = Options {
        bursts: 1_000,
        scattered: 1_000,
        slips: 1_000,
        ..Options::default()
    };
    let all_refused = report(&[WITHOUT_ENDS], options, &mut text).expect("a text");
    assert!(!all_refused);
    let text = String::from_utf8(text).expect("text");
    let findings: Vec<&str> = text
        .lines()
        .filter(|line| line.contains("found: "))
        .collect();
    // of single changes, and of bursts, changes and twice slips of each format; changes
    // of long windows cut from short telegrams it refuses with 6 or 7
    assert_eq!(findings.len(), (1 + 2 + 2 + 4) * KEPT);
    let telegram = &appendix_b()[0];
    let (format, place) = (telegram.format.name(), telegram.bits.len());
    let first = format!(
        "  found: {}: accepted: {format} window of {}, turn 0, upright, changed from place {place} on: {place}",
        WITHOUT_ENDS.name, telegram.name
    );
    assert_eq!(findings[0], first);
    assert!(report(&[RIGHT], options, &mut Vec::new()).expect("a text"));
}

/// Beyond the limits, the two rows that are within them find it.
#[test]
fn what_is_written_beyond_the_limits() {
    let mut text = Vec::new();
    assert!(!beyond(&[WITHOUT_ENDS], 200, 8, &mut text).expect("a text"));
    let text = String::from_utf8(text).expect("text");
    let mut last = "";
    let mut found = 0;
    for line in text.lines() {
        match line.contains("found: ") {
            true => {
                found += 1;
                assert!(last.contains("within the limit"), "{line}");
            }
            false => last = line,
        }
    }
    assert!(found > 0);
    assert!(beyond(&[RIGHT], 200, 8, &mut Vec::new()).expect("a text"));
}
