//! Slips: refused with 5, by the library and by the second program, or with 3 where
//! the output is too short, every byte of the output kept.

mod shared;

use compare::asked;
use damage::slips::{after, before, limits, random_slips, Limit, Slip, Slipped};
use damage::slips::{LIMITS, REFUSALS};
use damage::stretches::{Stretch, Stretched};
use damage::telegrams::{Kind, Window};
use damage::trial::{random_damage, Damage, Outputs, Trial};
use second::bits::bits_of;
use second::format::FORMATS;
use second::made::bits_of_words;
use second::random::Random;
use shared::{print, refused_as_foretold, windows_of_one, BOTH_PROGRAMS};
use std::collections::BTreeMap;

/// A trial of slips by both programs.
fn trial(outputs: Outputs, seed: u64) -> Trial<'static> {
    Trial::new(&BOTH_PROGRAMS, &REFUSALS, outputs, seed)
}

/// How slips are told apart: by what slips, and by how many bits.
type Sort = (&'static str, usize);

fn sort(slip: &Slip) -> Sort {
    match &slip.slipped {
        Slipped::Lost(many) => ("lost", *many),
        Slipped::PutIn(values) => ("put in", values.len()),
    }
}

/// How many random slips of a format there were of each sort, and where.
#[derive(Default)]
struct Counts {
    all: BTreeMap<Sort, usize>,
    /// Just far enough from the front edge of the window.
    first: BTreeMap<Sort, usize>,
    /// Just far enough from the back edge.
    last: BTreeMap<Sort, usize>,
    /// With as many bits of the window before them.
    reach_before: BTreeMap<Sort, usize>,
    /// With as many bits of the window after them.
    reach_after: BTreeMap<Sort, usize>,
    /// Just before the place r or n.
    at_a_seam: BTreeMap<Sort, usize>,
    /// Of which a bit lies on either side of a seam.
    across_a_seam: BTreeMap<Sort, usize>,
    not_proper: usize,
    flipped: usize,
}

impl Counts {
    fn add(&mut self, window: &Window, slip: &Slip, reach: usize) {
        let (format, length) = (window.format(), window.bits.len());
        let seams = [format.extra_bits(), format.telegram_bits()];
        let (place, many) = (slip.place, slip.many());
        let across = |seam: &usize| (place + 1..place + many).contains(seam);
        let sort = sort(slip);
        for (map, belongs) in [
            (&mut self.all, true),
            (&mut self.first, slip.before() == reach),
            (&mut self.last, slip.after(length) == reach),
            (&mut self.reach_before, place == reach),
            (&mut self.reach_after, slip.sent(length) - place == reach),
            (&mut self.at_a_seam, seams.contains(&place)),
            (&mut self.across_a_seam, seams.iter().any(across)),
        ] {
            *map.entry(sort).or_default() += usize::from(belongs);
        }
        self.not_proper += usize::from(!window.telegram.proper);
        self.flipped += usize::from(window.flipped);
    }

    /// Prints them, and asserts that there were many of each.
    fn print(&self, limit: Limit, count: usize) {
        let (not_proper, flipped) = (self.not_proper, self.flipped);
        println!("    of telegrams that are not proper: {not_proper}; flipped: {flipped}");
        assert!(not_proper > count / 4 && flipped > count / 4);
        let sorts = 2 * (limit.most - limit.least + 1);
        let of_each = count / sorts;
        for (what, counted, least) in [
            ("all", &self.all, of_each * 9 / 10),
            ("at the limit in front", &self.first, of_each / 10),
            ("at the limit behind", &self.last, of_each / 10),
            ("after as many bits", &self.reach_before, of_each / 10),
            ("before as many bits", &self.reach_after, of_each / 10),
            ("at a seam", &self.at_a_seam, of_each / 100),
        ] {
            println!("    {what}: {counted:?}");
            assert_eq!(counted.len(), sorts);
            assert!(counted.values().all(|&counted| counted > least), "{what}");
        }
        println!("    across a seam: {:?}", self.across_a_seam);
        for ((_, many), counted) in &self.across_a_seam {
            assert!(*many == 1 || *counted > of_each / 100);
        }
    }
}

/// Random slips of each format within each limit, at least.
const SLIPS: usize = 200_000;

/// So many of each, or more if BALISE_DAMAGED says so.
#[test]
fn random() {
    let count = asked("BALISE_DAMAGED", SLIPS).max(SLIPS);
    for format in FORMATS {
        for limit in LIMITS {
            let mut trial = trial(Outputs::SomeShort, 110);
            let mut counts = Counts::default();
            random_slips(format, limit, count, 111, |window, slip| {
                refused_as_foretold(&mut trial, window, slip);
                counts.add(window, slip, limit.reach);
            });
            let (name, Limit { least, most, .. }) = (format.name(), limit);
            let what = format!("random slips of {least} to {most} bits in {name} windows");
            print(&trial, &what);
            counts.print(limit, count);
            assert_eq!(trial.given, count);
        }
    }
}

/// Values to be put in at a place: all, or of more bits all 0, all 1 and those beside
/// the place.
fn some_values(window: &Window, many: usize, place: usize) -> Vec<Vec<u8>> {
    match many {
        1..=4 => (0..1 << many).map(|values| bits_of(values, many)).collect(),
        _ => vec![
            vec![0; many],
            vec![1; many],
            before(window, many, place),
            after(window, many, place),
        ],
    }
}

/// Slips at every place of a window within a limit: bits lost, and put in.
fn at_each_place(window: &Window, limit: Limit, mut each: impl FnMut(&Slip)) {
    let length = window.bits.len();
    for many in limit.least..=limit.most {
        let [first, last] = limits(limit.reach, many, length);
        for place in first..=last {
            each(&Slip::lost(place, many));
        }
        let [first, last] = limits(limit.reach, many, length - many);
        for place in first..=last {
            for values in some_values(window, many, place) {
                each(&Slip::put_in(place, values));
            }
        }
    }
}

/// Whether a slip stays within what is proved one place nearer to the edges.
fn stays_within(window: &Window, slip: &Slip) -> [bool; 2] {
    let place = slip.place;
    [place - 1, place + 1].map(|place| {
        let nearer = Slip {
            place,
            ..slip.clone()
        };
        nearer.refusal(window).is_some()
    })
}

#[test]
fn at_every_place() {
    for format in FORMATS {
        for limit in LIMITS {
            let mut trial = trial(Outputs::Room, 112);
            let mut at_a_limit: BTreeMap<Sort, usize> = BTreeMap::new();
            windows_of_one(format, |window| {
                at_each_place(&window, limit, |slip| {
                    refused_as_foretold(&mut trial, &window, slip);
                    if stays_within(&window, slip).contains(&false) {
                        *at_a_limit.entry(sort(slip)).or_default() += 1;
                    }
                });
            });
            let (name, Limit { least, most, .. }) = (format.name(), limit);
            let what = format!("slips of {least} to {most} bits at every place of {name} windows");
            print(&trial, &what);
            // of four windows, at two limits
            let lost = (least..=most).map(|many| at_a_limit[&("lost", many)]);
            assert!(lost.eq((least..=most).map(|_| 4 * 2)));
            assert_eq!(at_a_limit.len(), 2 * (most - least + 1));
        }
    }
}

/// A slip of 1 to 10 bits at any place, half the time near an edge.
fn anywhere(random: &mut Random, window: &Window) -> Slip {
    let [Limit { reach, .. }, Limit { most, .. }] = LIMITS;
    let many = 1 + random.below(most);
    Slip::drawn(random, window, many, |random, sent| {
        let near = random.below(reach);
        match random.below(4) {
            0 => near,
            1 => sent - near,
            _ => random.below(sent + 1),
        }
    })
}

/// Wherever 1 to 10 bits slip, the window is refused with 5, or it is one without
/// damage, at another turn, and is answered as such.
#[test]
fn at_any_place() {
    let count = asked("BALISE_DAMAGED", SLIPS).max(SLIPS);
    for format in FORMATS {
        let (mut trial, mut undamaged) = (trial(Outputs::Room, 123), 0);
        random_damage(Kind::Of(format), count, 124, anywhere, |window, slip| {
            let answers = trial.give(window, slip);
            let noticed = answers.iter().all(|answer| answer.is_one_of(&REFUSALS));
            let without_damage = window.undamaged(&slip.damaged(window));
            assert!(noticed != without_damage, "{window}, {slip}: {answers:?}");
            if without_damage {
                let accepted = answers.iter().map(|answer| answer.number == 0);
                let proper = window.telegram.proper;
                assert!(accepted.eq([proper, true, proper, true]));
                undamaged += 1;
            }
        });
        let (given, name) = (trial.given, format.name());
        println!("{given} slips of 1 to 10 bits at any place of {name} windows: {undamaged} without damage, the others refused with 5");
        assert!(given == count && undamaged > count / 100);
    }
}

/// The telegrams with longest stretches of a period, of both formats.
fn stretched(random: &mut Random, period: usize, mut each: impl FnMut(&mut Random, &Stretched)) {
    for format in FORMATS {
        for stretched in Stretched::some(random, format, period) {
            each(random, &stretched);
        }
    }
}

/// Gives slips of as many bits as the period of a stretch that lies between the slip
/// and an edge: none is refused with 5. The window is one without damage, and so it is
/// read, by `read` where the telegram is proper.
fn not_noticed(trial: &mut Trial, random: &mut Random, stretched: &Stretched, near: usize) {
    for _ in 0..20 {
        let (window, slip) = stretched.slip(random, near);
        assert_eq!(near, slip.before().min(slip.after(window.bits.len())));
        assert_eq!(slip.refusal(&window), None);
        assert!(window.undamaged(&slip.damaged(&window)));
        let numbers = trial.give(&window, &slip).into_iter().map(|a| a.number);
        let numbers: Vec<u8> = numbers.collect();
        assert!(!numbers.contains(&5), "{window}, {slip}");
        assert_eq!([numbers[1], numbers[3]], [0, 0], "{window}, {slip}");
        let proper = stretched.telegram.proper;
        assert_eq!([numbers[0] == 0, numbers[2] == 0], [proper, proper]);
    }
}

/// Prints how many slips were not noticed, and how many of these `read` accepted.
fn print_not_noticed(trial: &Trial, what: &str) {
    let [read, read_well_formed] = [0, 1].map(|call| trial.tallies[call].accepted());
    println!("{} {what}: none refused with 5; {read_well_formed} accepted by read-well-formed, {read} by read", trial.given);
    assert!(trial.given > 0 && read_well_formed == trial.given);
}

/// One bit nearer to the edge, slips of 2, 3 and 4 bits are not always refused with
/// 5: 21 is the least that can be said. At the limit the same telegrams are refused.
#[test]
fn one_bit_nearer() {
    let mut random = Random::new(113);
    let Limit { most, reach, .. } = LIMITS[0];
    for many in 2..=most {
        let mut nearer = trial(Outputs::Room, 114);
        let mut at_the_limit = trial(Outputs::Room, 115);
        stretched(&mut random, many, |random, stretched| {
            assert_eq!(stretched.length, reach - 1);
            not_noticed(&mut nearer, random, stretched, reach - 1);
            for _ in 0..20 {
                let (window, slip) = stretched.slip(random, reach);
                refused_as_foretold(&mut at_the_limit, &window, &slip);
            }
        });
        let what = format!("slips of {many}, {} bits from an edge", reach - 1);
        print_not_noticed(&nearer, &what);
        let what = format!("slips of {many}, {reach} bits from an edge");
        print(&at_the_limit, &what);
    }
}

/// Slips of 5 bits, and farther from the edges of 11, are not always refused with 5: 4
/// and 10 are the most that can be said.
#[test]
fn one_bit_more() {
    let mut random = Random::new(116);
    for Limit { most, reach, .. } in LIMITS {
        let many = most + 1;
        let mut trial = trial(Outputs::Room, 117);
        stretched(&mut random, many, |random, stretched| {
            assert!(stretched.length > reach);
            for bits in reach..=stretched.length {
                not_noticed(&mut trial, random, stretched, bits);
            }
        });
        let what = format!("slips of {many}, {reach} bits and more from an edge");
        print_not_noticed(&trial, &what);
    }
}

/// Beside the longest stretches, slips of 5 to 10 bits are not refused with 5 as near
/// as the stretch is long, and are where it is far enough.
#[test]
fn nearer_with_more_bits() {
    let mut random = Random::new(120);
    let Limit { least, most, reach } = LIMITS[1];
    for many in least..=most {
        let mut nearer = trial(Outputs::Room, 121);
        let mut at_the_limit = trial(Outputs::Room, 122);
        let mut length = 0;
        stretched(&mut random, many, |random, stretched| {
            length = stretched.length;
            not_noticed(&mut nearer, random, stretched, length);
            let (window, slip) = stretched.slip(random, reach);
            refused_as_foretold(&mut at_the_limit, &window, &slip);
        });
        print_not_noticed(
            &nearer,
            &format!("slips of {many}, {length} bits from an edge"),
        );
        print(
            &at_the_limit,
            &format!("slips of {many}, {reach} bits from an edge"),
        );
    }
}

/// How long the longest stretches with the periods 1 to 10 are.
const LONGEST: [usize; 10] = [8, 20, 20, 20, 38, 40, 51, 73, 73, 40];

/// They are so long and have their period.
#[test]
fn longest_stretches() {
    let mut random = Random::new(118);
    for (period, length) in (1..).zip(LONGEST) {
        let stretches = Stretch::longest(&mut random, period);
        assert!(!stretches.is_empty());
        for stretch in &stretches {
            assert_eq!((stretch.period, stretch.length), (period, length));
            let bits = bits_of_words(&stretch.words);
            let of_it = &bits[stretch.from..][..length];
            assert!((period..length).all(|i| of_it[i] == of_it[i - period]));
        }
        println!(
            "{} stretches of {length} bits with the period {period}",
            stretches.len()
        );
    }
}

/// No telegram that is made has a longer stretch of one of these periods, round the
/// ring.
#[test]
fn no_longer_stretches() {
    let mut random = Random::new(119);
    for (period, most) in (1..).zip(LONGEST) {
        let mut longest = 0;
        stretched(&mut random, period, |_, stretched| {
            longest = longest.max(longest_in(&stretched.telegram.bits, period));
        });
        assert_eq!(longest, most, "period {period}");
    }
}

/// The most neighbouring bits of a telegram going round that have a period.
fn longest_in(telegram: &[u8], period: usize) -> usize {
    let n = telegram.len();
    let (mut longest, mut run) = (0, 0);
    for i in 0..2 * n {
        run = match telegram[i % n] == telegram[(i + period) % n] {
            true => run + 1,
            false => 0,
        };
        longest = longest.max(run + period);
    }
    longest
}
