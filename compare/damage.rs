//! Ways to damage the second program's machine, and ways to change it that may keep it valid. Its
//! own test for validity says which of the two it became.

use std::collections::BTreeSet;

use second::author::Rng;
use second::machine::*;

/// Changes a machine; nothing where it has not got what the change is about. An assignment is `()`,
/// so that `Some(place = value)` is a change that was made.
pub type Damage = fn(&mut Machine, &mut Rng) -> Option<()>;
pub type SideDamage = fn(&mut Machine, Side, &mut Rng) -> Option<()>;

/// Numbers far out of any range.
const FAR: [u64; 4] = [1 << 32, IDLE, 1 << 63, u64::MAX];

pub const SETUP: &[(&str, Damage)] = &[
    ("nothing changed", |_, _| Some(())),
    ("the empty machine", |m, _| Some(*m = Machine::empty())),
    ("no pages", |m, _| resize(m, 0)),
    ("no pages but their memory", |m, _| Some(m.pages = 0)),
    ("a page more", |m, _| {
        let pages = m.pages;
        resize(m, pages + 1)
    }),
    ("a page less", |m, _| {
        let pages = m.pages;
        resize(m, pages - 1)
    }),
    ("more than PAGES pages", |m, _| resize(m, PAGES + 1)),
    ("pages far out", |m, rng| {
        m.pages = any(rng, FAR)?;
        Some(())
    }),
    ("memory a word short", |m, _| m.memory.pop().map(|_| ())),
    ("memory a word long", |m, _| Some(m.memory.push(0))),
    ("memory a page short", |m, _| Some(m.memory.truncate(m.memory.len() - WORDS as usize))),
    ("memory a page long", |m, _| Some(m.memory.resize(m.memory.len() + WORDS as usize, 0))),
    ("no memory", |m, _| Some(m.memory.clear())),
    ("other words in memory", |m, rng| Some(m.memory.fill_with(|| rng.next()))),
    ("a unit's VM out of range", |m, _| Some(unit(m)?.region.vm = VMS)),
    ("a unit's access out of range", |m, _| Some(unit(m)?.region.access = ACCESSES)),
    ("a unit of no page", |m, _| Some(unit(m)?.region.count = 0)),
    ("a unit past the last guest page", |m, _| {
        let region = &mut unit(m)?.region;
        Some(region.guest = GUESTS - region.count + 1)
    }),
    ("a unit past the last page", |m, _| {
        let pages = m.pages;
        let region = &mut unit(m)?.region;
        Some(region.page = pages - region.count + 1)
    }),
    ("a unit that wraps in guest pages", |m, _| Some(unit(m)?.region.guest = u64::MAX)),
    ("a unit that wraps in pages", |m, _| Some(unit(m)?.region.page = u64::MAX)),
    ("a unit of too many pages", |m, _| Some(unit(m)?.region.count = u64::MAX)),
    ("a unit with another mark", |m, _| Some(unit(m)?.mark = Mark::Dma)),
    ("a unit more", |m, _| {
        (m.units.len() < UNITS).then_some(())?;
        let region = Region {
            vm: VMS - 1,
            guest: GUESTS - 1,
            page: m.pages - 1,
            count: 1,
            access: ACCESSES - 1,
        };
        Some(m.units.push(Unit { region, mark: Mark::Both }))
    }),
    ("a unit less", |m, _| m.units.pop().map(|_| ())),
    ("shared span past the last page", |m, _| Some(m.shared.base = m.pages - m.shared.count + 1)),
    ("an empty shared span above N", |m, rng| {
        (m.shared.count == 0).then_some(())?;
        Some(m.shared.base = m.pages + 1 + rng.below(PAGES))
    }),
    ("an empty shared span elsewhere", |m, rng| {
        (m.shared.count == 0).then_some(())?;
        Some(m.shared.base = rng.below(m.pages + 1))
    }),
    ("shared span that wraps", |m, _| Some(m.shared = Span { base: u64::MAX, count: 1 })),
    ("shared span a page longer", |m, _| Some(m.shared.count += 1)),
    ("shared span a page shorter", |m, _| {
        m.shared.count = m.shared.count.checked_sub(1)?;
        Some(())
    }),
    ("shared span a page further", |m, _| Some(m.shared.base += 1)),
    ("shared span takes a page of the pool", |m, _| {
        m.pool.remove(&(m.shared.base + m.shared.count)).then_some(())?;
        Some(m.shared.count += 1)
    }),
    ("shared span gives a page to the pool", |m, _| {
        m.shared.count = m.shared.count.checked_sub(1)?;
        m.pool.insert(m.shared.base + m.shared.count).then_some(())
    }),
];

pub const TABLES: &[(&str, Damage)] = &[
    ("a VM past the last known", |m, _| learn(m, VMS)),
    ("VM 63 known", |m, _| learn(m, 63)),
    ("a VM known", |m, rng| {
        let vm = unknown(m, rng)?;
        learn(m, vm)
    }),
    ("a VM forgotten", |m, rng| {
        let vm = known(m, rng)?;
        forget(m, vm)
    }),
    ("a page of no one", |m, rng| {
        let page = any(rng, m.pool.iter().copied())?;
        m.pool.remove(&page).then_some(())
    }),
    ("a VM's page in the pool too", |m, rng| {
        let (_, page) = held(m, Side::Cpu, rng)?;
        m.pool.insert(page).then_some(())
    }),
    ("a page of the shared span in the pool", |m, rng| {
        let page = any(rng, m.shared.base..m.shared.base + m.shared.count)?;
        m.pool.insert(page).then_some(())
    }),
    ("a page at N or above in the pool", |m, rng| {
        let page = any(rng, m.pages..PAGES)?;
        m.pool.insert(page).then_some(())
    }),
    ("a page of the pool held for DMA by two VMs", |m, rng| {
        let page = any(rng, m.pool.iter().copied())?;
        let (one, other) = (known(m, rng)?, known(m, rng)?);
        m.dma.owned.get_mut(&one)?.insert(page);
        m.dma.owned.get_mut(&other)?.insert(page).then_some(())
    }),
    ("a pair of one VM", |m, rng| {
        let (vm, page) = held(m, Side::Cpu, rng)?;
        m.pairs.insert((vm, vm, page)).then_some(())
    }),
    ("a pair with a VM not known", |m, rng| {
        let ((owner, page), other) = (held(m, Side::Cpu, rng)?, unknown(m, rng)?);
        m.pairs.insert(pair(owner, other, page)).then_some(())
    }),
    ("a pair with a VM past the last", |m, rng| {
        let (owner, page) = held(m, Side::Cpu, rng)?;
        m.pairs.insert((owner, VMS, page)).then_some(())
    }),
    ("a pair more", |m, rng| {
        let ((owner, page), other) = (held(m, Side::Cpu, rng)?, known(m, rng)?);
        (owner != other && m.pairs.insert(pair(owner, other, page))).then_some(())
    }),
    ("a pair on any page", |m, rng| {
        let (one, other, page) = (known(m, rng)?, known(m, rng)?, rng.below(m.pages));
        (one != other && m.pairs.insert(pair(one, other, page))).then_some(())
    }),
    ("a pair on a page at N or above", |m, rng| {
        let (one, other, page) = (known(m, rng)?, known(m, rng)?, m.pages + rng.below(PAGES));
        (one != other && m.pairs.insert(pair(one, other, page))).then_some(())
    }),
    ("a pair less", |m, rng| {
        let pair = any(rng, m.pairs.iter().copied())?;
        m.pairs.remove(&pair).then_some(())
    }),
];

pub const SIDES: &[(&str, SideDamage)] = &[
    ("a page with a VM not known", |m, side, rng| {
        let (vm, page) = (unknown(m, rng)?, any(rng, m.pool.iter().copied())?);
        if side == Side::Cpu {
            m.pool.remove(&page);
        }
        m.half_mut(side).owned.entry(vm).or_default().insert(page).then_some(())
    }),
    ("a page at N or above with a VM", |m, side, rng| {
        let (vm, page) = (known(m, rng)?, any(rng, m.pages..PAGES)?);
        hold(m, side, vm, page)
    }),
    ("a page of the shared span with a VM", |m, side, rng| {
        let page = any(rng, m.shared.base..m.shared.base + m.shared.count)?;
        let vm = known(m, rng)?;
        hold(m, side, vm, page)
    }),
    ("a page of two VMs", |m, side, rng| {
        let ((vm, page), other) = (held(m, side, rng)?, known(m, rng)?);
        (vm != other).then_some(())?;
        hold(m, side, other, page)
    }),
    ("another VM's page of the other side", |m, side, rng| {
        let ((vm, page), other) = (held(m, opposite(side), rng)?, known(m, rng)?);
        (vm != other).then_some(())?;
        hold(m, side, other, page)
    }),
    ("a page of the other side", |m, side, rng| {
        let (vm, page) = held(m, opposite(side), rng)?;
        hold(m, side, vm, page)
    }),
    ("a page out of the pool", |m, side, rng| {
        let (vm, page) = (known(m, rng)?, any(rng, m.pool.iter().copied())?);
        if side == Side::Cpu {
            m.pool.remove(&page);
        }
        hold(m, side, vm, page)
    }),
    ("a page no longer held", |m, side, rng| {
        let (vm, page) = held(m, side, rng)?;
        m.half_mut(side).owned.get_mut(&vm)?.remove(&page).then_some(())
    }),
    ("a page back in the pool", |m, side, rng| {
        let (vm, page) = held(m, side, rng)?;
        m.pool.insert(page);
        m.half_mut(side).owned.get_mut(&vm)?.remove(&page).then_some(())
    }),
    ("hand past the last slot", |m, side, _| Some(m.half_mut(side).cache.hand = SLOTS)),
    ("hand far out", |m, side, rng| {
        let far = any(rng, FAR)?;
        Some(m.half_mut(side).cache.hand = far as usize)
    }),
    ("hand elsewhere", |m, side, rng| {
        Some(m.half_mut(side).cache.hand = rng.below(SLOTS as u64) as usize)
    }),
    ("a port with a VM not known", |m, side, rng| {
        let vm = unknown(m, rng)?;
        Some(*port(m, side, rng) = Some(vm))
    }),
    ("a port with a VM past the last", |m, side, rng| Some(*port(m, side, rng) = Some(VMS))),
    ("a port with a VM far out", |m, side, rng| {
        let far = any(rng, [IDLE - 1, IDLE + 1, 1 << 63, u64::MAX])?;
        Some(*port(m, side, rng) = Some(far))
    }),
    ("a port with another VM", |m, side, rng| {
        let vm = known(m, rng)?;
        Some(*port(m, side, rng) = Some(vm))
    }),
    ("a port idle", |m, side, rng| Some(*port(m, side, rng) = None)),
];

pub fn any<T: Copy>(rng: &mut Rng, choices: impl IntoIterator<Item = T>) -> Option<T> {
    rng.pick(&choices.into_iter().collect::<Vec<T>>())
}

/// As many pages as given, with memory for them.
fn resize(m: &mut Machine, pages: u64) -> Option<()> {
    m.memory.resize((pages * WORDS) as usize, 0);
    Some(m.pages = pages)
}

fn unit(m: &mut Machine) -> Option<&mut Unit> {
    m.units.last_mut()
}

pub fn opposite(side: Side) -> Side {
    match side {
        Side::Cpu => Side::Dma,
        Side::Dma => Side::Cpu,
    }
}

pub fn known(m: &Machine, rng: &mut Rng) -> Option<Vm> {
    any(rng, m.known.iter().copied())
}

pub fn unknown(m: &Machine, rng: &mut Rng) -> Option<Vm> {
    any(rng, (0..VMS).filter(|vm| !m.known.contains(vm)))
}

fn held(m: &Machine, side: Side, rng: &mut Rng) -> Option<(Vm, Page)> {
    let owned = m.half(side).owned.iter();
    any(rng, owned.flat_map(|(&vm, pages)| pages.iter().map(move |&page| (vm, page))))
}

fn hold(m: &mut Machine, side: Side, vm: Vm, page: Page) -> Option<()> {
    m.half_mut(side).owned.get_mut(&vm)?.insert(page).then_some(())
}

fn port<'a>(m: &'a mut Machine, side: Side, rng: &mut Rng) -> &'a mut Option<Vm> {
    &mut m.half_mut(side).ports[rng.below(PORTS as u64) as usize]
}

fn learn(m: &mut Machine, vm: Vm) -> Option<()> {
    for half in [&mut m.cpu, &mut m.dma] {
        half.owned.insert(vm, BTreeSet::new());
    }
    m.known.insert(vm).then_some(())
}

/// A VM that is not known has no set of pages; one with pages in it stays, and is not valid.
fn forget(m: &mut Machine, vm: Vm) -> Option<()> {
    for half in [&mut m.cpu, &mut m.dma] {
        half.owned.retain(|&owner, pages| owner != vm || !pages.is_empty());
    }
    m.known.remove(&vm).then_some(())
}
