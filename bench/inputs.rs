//! The inputs by which the test for validity is measured: ordinary ones, and ones with keys chosen
//! against a test that files them. crates/keys files a key by one of 1,024 classes, the VM and the high
//! six bits of the guest page, and within it by the guest page's low ten.

use std::fmt;

use second::author::Rng;
use tiligormis::{ENTRIES, GUEST_PAGES, VMS};

/// Keys of a class: the low ten bits of a guest page.
pub const PLACES: u64 = 1024;
pub const CLASSES: u64 = VMS * GUEST_PAGES / PLACES;

/// Sets of tables of one input: alike, but with other numbers wherever it takes them at random.
pub const VARIANTS: u64 = 8;

/// Into which classes the keys of a map go, one after the other.
#[derive(Clone, Copy)]
pub enum Keys {
    /// Consecutive guest pages of eight VMs, VM by VM.
    Guests,
    /// So many classes chosen at random: all keys of one, then of the next; or the classes in turn;
    /// or a class at random for every key.
    Blocks(u64),
    InTurn(u64),
    AtRandom(u64),
}

/// The low ten bits of the guest pages: from 0 on in each class, or mixed.
#[derive(Clone, Copy)]
pub enum Low {
    Consecutive,
    Mixed,
}

/// Which places of a map are filled.
#[derive(Clone, Copy)]
pub enum Places {
    First,
    Scattered,
}

/// The walker's words beside those of the map.
#[derive(Clone, Copy)]
pub enum Walker {
    Same,
    Reversed,
    Shuffled,
}

/// Which of the walker's entries the slots hold.
#[derive(Clone, Copy)]
pub enum Held {
    First,
    Last,
    /// The first few, each for all eight ports.
    EightPorts,
    Nothing,
}

/// What entries go onto: pages of their VM, or pages lent to it and for devices the shared span's.
#[derive(Clone, Copy)]
pub enum Onto {
    Own,
    Lent,
}

/// How a box is made: so many entries in each of its four maps, an eighth as many slots in each cache
/// and a fourth as many pairs.
#[derive(Clone, Copy)]
pub struct Input {
    pub name: &'static str,
    pub filled: usize,
    pub places: Places,
    pub keys: Keys,
    pub low: Low,
    pub walker: Walker,
    pub held: Held,
    pub onto: Onto,
    pub seed: u64,
}

pub const ORDINARY: Input = Input {
    name: "ordinary",
    filled: ENTRIES,
    places: Places::First,
    keys: Keys::Guests,
    low: Low::Consecutive,
    walker: Walker::Same,
    held: Held::First,
    onto: Onto::Own,
    seed: 0,
};

/// Keys of any VM and guest page.
pub const ANY: Input =
    Input { name: "any keys", keys: Keys::AtRandom(CLASSES), low: Low::Mixed, ..ORDINARY };

pub fn chosen() -> Vec<Input> {
    let ordinary = |name| Input { name, ..ORDINARY };
    let any = |name| Input { name, ..ANY };
    let one = |name| Input { name, keys: Keys::Blocks(1), ..ORDINARY };
    let turns = |name, classes| Input { name, keys: Keys::InTurn(classes), ..ORDINARY };
    let (reversed, shuffled) = (Walker::Reversed, Walker::Shuffled);
    let half = ENTRIES / 2;
    vec![
        ORDINARY,
        Input { filled: 0, ..ordinary("empty tables") },
        Input { filled: half, ..ordinary("half-full tables") },
        Input { walker: reversed, ..ordinary("walker reversed") },
        Input { walker: shuffled, ..ordinary("walker shuffled") },
        Input { held: Held::Last, ..ordinary("slots hold the last") },
        Input { held: Held::EightPorts, ..ordinary("slots hold eight, for eight ports each") },
        Input { held: Held::Nothing, ..ordinary("slots hold nothing") },
        Input { onto: Onto::Lent, ..ordinary("onto lent and shared pages") },
        one("one class"),
        Input { walker: reversed, held: Held::Last, ..one("one class, reversed, the last") },
        Input { walker: shuffled, low: Low::Mixed, ..one("one class, mixed, shuffled") },
        turns("16 classes in turn", 16),
        turns("same low ten bits", ENTRIES as u64),
        Input { low: Low::Mixed, ..turns("each in a class of its own", ENTRIES as u64) },
        any("any keys"),
        Input { walker: reversed, ..any("any keys, reversed") },
        Input { walker: shuffled, held: Held::Last, ..any("any keys, shuffled, the last") },
        Input { walker: shuffled, onto: Onto::Lent, ..any("any keys, shuffled, lent") },
        Input { filled: half, places: Places::Scattered, ..any("any keys, half of the places") },
    ]
}

/// An input of everything at random.
pub fn generated(seed: u64) -> Input {
    let random = &mut Rng::new(seed);
    fn pick<T: Copy>(random: &mut Rng, choices: &[T]) -> T {
        choices[random.below(choices.len() as u64) as usize]
    }
    let classes = 1 << random.below(11);
    let spread = [Keys::Blocks(classes), Keys::InTurn(classes), Keys::AtRandom(classes)];
    Input {
        name: "generated",
        filled: pick(random, &[8, 8, 7, 6, 4]) * ENTRIES / 8,
        places: pick(random, &[Places::First, Places::Scattered]),
        keys: pick(random, &spread),
        low: pick(random, &[Low::Consecutive, Low::Mixed]),
        walker: pick(random, &[Walker::Same, Walker::Reversed, Walker::Shuffled]),
        held: pick(random, &[Held::First, Held::Last, Held::EightPorts, Held::Nothing]),
        onto: pick(random, &[Onto::Own, Onto::Lent]),
        seed,
    }
}

impl fmt::Display for Input {
    fn fmt(&self, f: &mut fmt::Formatter) -> fmt::Result {
        match self.places {
            Places::First => write!(f, "the first {} places", self.filled)?,
            Places::Scattered => write!(f, "{} places at random", self.filled)?,
        }
        match self.keys {
            Keys::Guests => write!(f, ", consecutive guest pages of eight VMs")?,
            Keys::Blocks(classes) => write!(f, ", {classes} classes in blocks")?,
            Keys::InTurn(classes) => write!(f, ", {classes} classes in turn")?,
            Keys::AtRandom(classes) => write!(f, ", {classes} classes at random")?,
        }
        f.write_str(match self.low {
            Low::Consecutive => ", low bits consecutive",
            Low::Mixed => ", low bits mixed",
        })?;
        f.write_str(match self.walker {
            Walker::Same => ", walker in the map's order",
            Walker::Reversed => ", walker reversed",
            Walker::Shuffled => ", walker shuffled",
        })?;
        f.write_str(match self.held {
            Held::First => ", slots hold the first",
            Held::Last => ", slots hold the last",
            Held::EightPorts => ", slots hold few for eight ports each",
            Held::Nothing => ", slots hold nothing",
        })?;
        f.write_str(match self.onto {
            Onto::Own => ", onto own pages",
            Onto::Lent => ", onto lent and shared pages",
        })
    }
}
