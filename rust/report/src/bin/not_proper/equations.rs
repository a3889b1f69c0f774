//! Linear equations over two elements in the bits of a telegram.

use second::random::Random;

const NUMBERS: usize = 16;

/// Which of 1,024 things are taken. In a solution: the places of a telegram,
/// from its left end on, that have a 1. In an equation: the places whose bits
/// are added, and `SUM` where their sum is to be 1.
#[derive(Clone, Copy, Debug, Default, PartialEq, Eq)]
pub struct Bits([u64; NUMBERS]);

/// Where an equation has its sum: after all places of a telegram.
const SUM: usize = 64 * NUMBERS - 1;

impl Bits {
    pub fn get(&self, place: usize) -> bool {
        self.0[place / 64] >> (place % 64) & 1 == 1
    }

    pub fn flip(&mut self, place: usize) {
        self.0[place / 64] ^= 1 << (place % 64);
    }

    pub fn add(&mut self, other: &Bits) {
        for (number, other) in self.0.iter_mut().zip(other.0) {
            *number ^= other;
        }
    }

    pub fn random(random: &mut Random) -> Bits {
        Bits([(); NUMBERS].map(|()| random.number()))
    }

    /// The first `count` places as a list.
    pub fn list(&self, count: usize) -> Vec<u8> {
        (0..count).map(|place| u8::from(self.get(place))).collect()
    }

    /// The first place that is taken.
    fn first(&self) -> Option<usize> {
        let at = self.0.iter().position(|&number| number != 0)?;
        Some(64 * at + self.0[at].trailing_zeros() as usize)
    }

    /// Is the number of those that both have odd?
    fn odd(&self, other: &Bits) -> bool {
        let both = self.0.iter().zip(other.0).map(|(one, other)| one & other);
        both.fold(0, |sum, number| sum ^ number).count_ones() % 2 == 1
    }
}

/// The equation that the bits at these places add up to a sum.
pub fn equation(places: impl IntoIterator<Item = usize>, sum: bool) -> Bits {
    let mut equation = Bits::default();
    for place in places {
        equation.flip(place);
    }
    if sum {
        equation.flip(SUM);
    }
    equation
}

/// Equations that do not contradict each other. Each settles the bit at one
/// place, which no later one has.
#[derive(Clone, Debug)]
pub struct System {
    unknowns: usize,
    settled: Vec<(usize, Bits)>,
}

impl System {
    /// No equation in so many bits.
    pub fn new(unknowns: usize) -> System {
        assert!(unknowns <= SUM);
        System {
            unknowns,
            settled: Vec::new(),
        }
    }

    /// Adds some equations. Where they contradict those that are there, or would
    /// leave fewer than `free` bits free, adds none, and says so.
    pub fn add(&mut self, equations: &[Bits], free: usize) -> bool {
        let before = self.settled.len();
        for equation in equations {
            let mut rest = *equation;
            for (place, earlier) in &self.settled {
                if rest.get(*place) {
                    rest.add(earlier);
                }
            }
            match rest.first() {
                None => {}
                Some(place) if place < SUM && self.settled.len() + free < self.unknowns => {
                    self.settled.push((place, rest));
                }
                _ => {
                    self.settled.truncate(before);
                    return false;
                }
            }
        }
        true
    }

    /// The solution that has these values at the places that are free.
    pub fn solution(&self, values: &Bits) -> Bits {
        let mut solution = *values;
        // so that a sum of 1 counts as one more bit of its equation
        if !solution.get(SUM) {
            solution.flip(SUM);
        }
        for (place, equation) in self.settled.iter().rev() {
            if equation.odd(&solution) {
                solution.flip(*place);
            }
        }
        solution
    }

    /// What the change of one free bit changes in a solution.
    pub fn change(&self, solution: &Bits, place: usize) -> Bits {
        let mut other = *solution;
        other.flip(place);
        let mut change = self.solution(&other);
        change.add(solution);
        change
    }

    /// The places that are free.
    pub fn free_places(&self) -> Vec<usize> {
        (0..self.unknowns)
            .filter(|place| self.settled.iter().all(|(settled, _)| settled != place))
            .collect()
    }
}
