//! The search of a well-formed telegram of which further words are valid, cut
//! off step or from the thinned telegram, and for which further equations hold.
//! Each word is held in an affine subspace of the table. Where that would leave
//! too few bits free, the other words are left to chance, and the solutions of
//! the equations are gone through until those words are valid too.

use crate::equations::{equation, Bits, System};
use crate::subspaces::Subspace;
use second::cyclic::{fg, g, remainder};
use second::format::{Format, CHECK_BITS};
use second::random::Random;
use second::telegram::CONTROL;
use second::words::{valid, WORD_BITS};

/// The places of a word's bits in the telegram.
pub type Places = [usize; WORD_BITS];

/// What a telegram is to have besides being well-formed.
pub struct Wish {
    pub format: Format,
    /// Words that are to be valid.
    pub words: Vec<Places>,
    /// Equations that are to hold.
    pub equations: Vec<Bits>,
}

/// Subspaces to draw from.
const SUBSPACES: usize = 200;

/// Subspaces tried for a word before it is left to chance.
const TRIED: usize = 40;

/// Bits that are left free: a system has 2 to this power solutions or more, and
/// so many are gone through.
const FREE: usize = 23;

/// Solutions of one system that are tested by all that is wanted.
const TESTED: usize = 400;

/// A source of telegrams.
pub struct Search {
    pub random: Random,
    subspaces: Vec<Subspace>,
}

impl Search {
    pub fn new(seed: u64) -> Search {
        let mut random = Random::new(seed);
        let subspaces = (0..SUBSPACES)
            .map(|_| Subspace::random(&mut random))
            .collect();
        Search { random, subspaces }
    }

    /// A telegram with what is wished that passes a test.
    pub fn telegram(&mut self, wish: &Wish, wanted: impl Fn(&[u8]) -> bool) -> Vec<u8> {
        let bare = bare_system(wish);
        loop {
            let mut system = bare.clone();
            let chance = self.hold_words(&mut system, wish);
            if let Some(telegram) = self.walk(&system, wish.format, &chance, &wanted) {
                return telegram;
            }
        }
    }

    /// Holds the telegram's own words and those of the wish, in any order, in
    /// subspaces. What is left to chance.
    fn hold_words(&mut self, system: &mut System, wish: &Wish) -> Vec<Places> {
        let mut words: Vec<Places> = (0..wish.format.words()).map(own_word).collect();
        words.extend(&wish.words);
        let order = self.random.places(words.len(), words.len());
        order
            .into_iter()
            .map(|index| words[index])
            .filter(|word| !self.hold(system, word))
            .collect()
    }

    /// Holds a word in a subspace, where one does not contradict what is held
    /// already, and leaves enough bits free.
    fn hold(&mut self, system: &mut System, word: &Places) -> bool {
        (0..TRIED).any(|_| {
            let subspace = &self.subspaces[self.random.below(SUBSPACES)];
            system.add(&subspace.equations(word), FREE)
        })
    }

    /// Goes through solutions, from a random one on, by changing one free bit
    /// at a time, and with it those that go by it.
    fn walk(
        &mut self,
        system: &System,
        format: Format,
        chance: &[Places],
        wanted: impl Fn(&[u8]) -> bool,
    ) -> Option<Vec<u8>> {
        let mut solution = system.solution(&Bits::random(&mut self.random));
        let free = system.free_places();
        let changed = self.random.places(FREE, free.len());
        let changes: Vec<Bits> = changed
            .into_iter()
            .map(|index| system.change(&solution, free[index]))
            .collect();
        (1_usize..1 << FREE)
            .map(|step| {
                solution.add(&changes[step.trailing_zeros() as usize]);
                solution
            })
            .filter(|solution| chance.iter().all(|word| valid(word_at(solution, word))))
            .take(TESTED)
            .map(|solution| solution.list(format.telegram_bits()))
            .find(|telegram| wanted(telegram))
    }
}

/// The equations of the control bits, of the check bits and of the wish.
fn bare_system(wish: &Wish) -> System {
    let format = wish.format;
    let control = (0..3).map(|i| equation([format.shaped_bits() + i], CONTROL[i] == 1));
    let mut equations: Vec<Bits> = control.collect();
    equations.extend(check_equations(format));
    equations.extend(&wish.equations);
    let mut system = System::new(format.telegram_bits());
    assert!(system.add(&equations, FREE));
    system
}

/// The equations of the check bits: the telegram by f*g leaves g.
fn check_equations(format: Format) -> Vec<Bits> {
    let n = format.telegram_bits();
    let remainders: Vec<u128> = (0..n)
        .map(|place| {
            let mut power = vec![0; n - place];
            power[0] = 1;
            remainder(&power, fg(format))
        })
        .collect();
    (0..CHECK_BITS)
        .map(|i| {
            let added = (0..n).filter(|&place| remainders[place] >> i & 1 == 1);
            equation(added, g(format) >> i & 1 == 1)
        })
        .collect()
}

/// A word of the telegram itself.
fn own_word(index: usize) -> Places {
    std::array::from_fn(|i| WORD_BITS * index + i)
}

/// The word at these places of a solution.
fn word_at(solution: &Bits, places: &Places) -> u16 {
    places
        .iter()
        .fold(0, |word, &place| 2 * word + u16::from(solution.get(place)))
}
