//! Every way to change a state, under one shape.

use second::author::Rng;
use second::machine::{Half, Machine, Map, Side};
use second::valid::is_valid;
use tiligormis::Owned;

use crate::damage::{SETUP, SIDES, TABLES};
use crate::entries::{edit, ENTRY_CHANGES, MAPS, SLOT_CHANGES};
use crate::pack::pack;
use crate::spoil::{self, scatter, Named, Spoil};
use crate::supply::Supply;

/// A changed state: the box, and what the test for validity has to say of it.
pub struct State {
    pub owned: Owned,
    pub valid: bool,
    /// The second program's machine, where its types can express the state.
    pub second: Option<Machine>,
}

type Change = Box<dyn Fn(&Machine, &mut Rng) -> Option<State>>;

pub struct Case {
    pub name: String,
    /// Nothing where the machine has not got what the change is about.
    pub change: Change,
}

/// How many states may be without what a case changes before it counts as never made.
const TRIES: usize = 300;

impl Case {
    /// The change of the first state in the supply that has got what it is about.
    pub fn of_some_state(&self, supply: &mut Supply, rng: &mut Rng) -> Option<State> {
        (0..TRIES).find_map(|_| {
            supply.advance(rng);
            (self.change)(&supply.machine, rng)
        })
    }
}

pub fn cases() -> Vec<Case> {
    let plain = SETUP.iter().chain(TABLES);
    let mut cases: Vec<Case> =
        plain.map(|&(name, damage)| by_second(name.to_string(), damage)).collect();
    for (name, side) in [("CPU", Side::Cpu), ("DMA", Side::Dma)] {
        cases.extend(side_cases(name, side));
        for (maps_name, maps) in MAPS {
            cases.extend(map_cases(&format!("{name} {maps_name}"), side, maps));
        }
    }
    cases.extend(box_cases());
    cases
}

fn side_cases(side_name: &str, side: Side) -> impl Iterator<Item = Case> + '_ {
    SIDES.iter().chain(SLOT_CHANGES).map(move |&(name, damage)| {
        by_second(format!("{side_name}: {name}"), move |m, rng| damage(m, side, rng))
    })
}

/// Changes of entries in these maps of a side.
fn map_cases(
    maps_name: &str,
    side: Side,
    maps: fn(&mut Half) -> Vec<&mut Map>,
) -> impl Iterator<Item = Case> + '_ {
    ENTRY_CHANGES.iter().map(move |&(name, edits)| {
        by_second(format!("{maps_name}: {name}"), move |m, rng| {
            let edits = edits(m, side, rng)?;
            maps(m.half_mut(side)).into_iter().for_each(|map| edit(map, &edits));
            Some(())
        })
    })
}

/// Cases that are made on the box.
fn box_cases() -> Vec<Case> {
    let mut cases = Vec::new();
    for (part, map) in spoil::MAPS {
        cases.extend(
            spoil::WORDS.iter().chain(spoil::MAP_WORDS).map(|named| part_of(part, map, named)),
        );
    }
    cases.extend(
        (spoil::WORDS.iter().chain(spoil::PAIR_WORDS))
            .map(|named| part_of("pairs", |owned| &mut owned.pairs, named)),
    );
    for (part, cache) in spoil::CACHES {
        cases.extend(spoil::SLOTS_OF_A_CACHE.iter().map(|named| part_of(part, cache, named)));
    }
    let whole = spoil::SETS_AND_HEADER.iter();
    cases.extend(whole.map(|named| part_of("box", |owned| owned, named)));
    cases
}

/// A change of the second program's machine, whose own test judges it.
fn by_second(
    name: String,
    damage: impl Fn(&mut Machine, &mut Rng) -> Option<()> + 'static,
) -> Case {
    let change = move |machine: &Machine, rng: &mut Rng| {
        let mut second = machine.clone();
        damage(&mut second, rng)?;
        let mut owned = pack(&second)?;
        scatter(&mut owned, rng);
        Some(State { owned, valid: is_valid(&second), second: Some(second) })
    };
    Case { name, change: Box::new(change) }
}

/// A change of a part of the box, judged as the paper judges it.
fn part_of<T: 'static>(
    part_name: &str,
    part: fn(&mut Owned) -> &mut T,
    &(name, valid, spoil): &Named<T>,
) -> Case {
    let spoil: Spoil<T> = spoil;
    let change = move |machine: &Machine, rng: &mut Rng| {
        let mut owned = pack(machine)?;
        scatter(&mut owned, rng);
        spoil(part(&mut owned), rng)?;
        Some(State { owned, valid, second: valid.then(|| machine.clone()) })
    };
    Case { name: format!("{part_name}: {name}"), change: Box::new(change) }
}
