//! Tables of packed words (docs/MACHINE.md, section 3), searched and swept sixteen words a step.

use face::*;

use crate::rows::Entry;

pub type Word = u64;

pub const EMPTY: Word = 0;

/// A word with nothing but the filled bit.
const FILLED: Word = 1 << FILLED_AT;

/// All bits from one place up to another.
const fn field(from: u32, to: u32) -> u64 {
    (1 << to) - (1 << from)
}

const PAGE: u64 = field(PAGE_AT, GUEST_AT);
const GUEST: u64 = field(GUEST_AT, VM_AT) | FILLED;
const VM: u64 = field(VM_AT, PORT_AT) | FILLED;

fn at_guest(guest: usize) -> Word {
    (guest as u64) << GUEST_AT | FILLED
}

fn at_vm(vm: usize) -> Word {
    (vm as u64) << VM_AT | FILLED
}

fn at_page(page: usize) -> Word {
    (page as u64) << PAGE_AT | FILLED
}

pub fn at_port(port: usize) -> Word {
    (port as u64) << PORT_AT
}

pub fn entry_word(vm: usize, guest: usize, entry: Entry) -> Word {
    let low = (entry.access as u64) << ACCESS_AT | entry.generation as u64;
    at_vm(vm) | at_guest(guest) | at_page(entry.page as usize) | low
}

/// The word of a pair, its ends in the order given.
pub fn pair(left: usize, right: usize, page: usize) -> Word {
    at_vm(left) | at_guest(right) | at_page(page)
}

pub fn page_of(word: Word) -> usize {
    bits(word, PAGE_AT, FILLED_AT) as usize
}

/// 1 for a word that is filled, else 0.
pub fn filled(word: Word) -> u64 {
    bits(word, FILLED_AT, GUEST_AT)
}

pub fn access_of(word: Word) -> usize {
    bits(word, ACCESS_AT, PAGE_AT) as usize
}

/// Words that have these bits under the mask. The filled bit is always among them.
#[derive(Clone, Copy)]
pub struct Pattern {
    mask: u64,
    bits: u64,
}

impl Pattern {
    /// Port, VM and guest page; port 0 in a map.
    pub fn key(port: usize, vm: usize, guest: usize) -> Pattern {
        let address = Pattern::address(vm, guest);
        Pattern { mask: !(FILLED - 1), bits: at_port(port) | address.bits }
    }

    /// VM and guest page, on whichever port.
    pub fn address(vm: usize, guest: usize) -> Pattern {
        Pattern { mask: VM | GUEST, bits: at_vm(vm) | at_guest(guest) }
    }

    pub fn page(page: usize) -> Pattern {
        Pattern { mask: PAGE, bits: at_page(page) }
    }

    /// The VM of an entry, or the left end of a pair.
    pub fn vm(vm: usize) -> Pattern {
        Pattern { mask: VM, bits: at_vm(vm) }
    }

    /// The right end of a pair.
    pub fn right(vm: usize) -> Pattern {
        Pattern { mask: GUEST, bits: at_guest(vm) }
    }

    pub fn and(self, other: Pattern) -> Pattern {
        Pattern { mask: self.mask | other.mask, bits: self.bits | other.bits }
    }

    pub fn fits(self, word: Word) -> bool {
        word & self.mask == self.bits
    }
}

/// Words whose field, of those under the mask, is one of a span.
#[derive(Clone, Copy)]
pub struct Span {
    mask: u64,
    first: u64,
    /// Where the field begins, and how far the span goes in it.
    at: u32,
    size: u64,
}

impl Span {
    fn new(first: Pattern, at: u32, count: usize) -> Span {
        Span { mask: first.mask, first: first.bits, at, size: (count as u64) << at }
    }

    pub fn guests(vm: usize, guest: usize, count: usize) -> Span {
        Span::new(Pattern::address(vm, guest), GUEST_AT, count)
    }

    pub fn pages(page: usize, count: usize) -> Span {
        Span::new(Pattern::page(page), PAGE_AT, count)
    }

    /// How far into the span a word is; an empty one, or one below, is past its end.
    fn distance(self, word: Word) -> u64 {
        (word & self.mask).wrapping_sub(self.first)
    }

    pub fn has(self, word: Word) -> bool {
        self.distance(word) < self.size
    }

    pub fn index(self, word: Word) -> usize {
        (self.distance(word) >> self.at) as usize
    }
}

/// Words of a step. Within one nothing branches, so the compiler may compare them side by side.
const STEP: usize = 16;

pub struct Table<const LENGTH: usize>(pub [Word; LENGTH]);

impl<const LENGTH: usize> Table<LENGTH> {
    pub const EMPTY: Self = Table([EMPTY; LENGTH]);

    fn steps(&self) -> &[[Word; STEP]] {
        const { assert!(LENGTH % STEP == 0, "a table is whole steps") };
        self.0.as_chunks().0
    }

    fn steps_mut(&mut self) -> &mut [[Word; STEP]] {
        const { assert!(LENGTH % STEP == 0, "a table is whole steps") };
        self.0.as_chunks_mut().0
    }

    /// The first place whose word passes.
    pub fn find(&self, test: impl Fn(Word) -> bool) -> Option<usize> {
        let step = self.steps().iter().position(|step| any(step, &test))?;
        let place = self.steps()[step].iter().position(|&word| test(word))?;
        Some(step * STEP + place)
    }

    pub fn any(&self, test: impl Fn(Word) -> bool) -> bool {
        self.steps().iter().any(|step| any(step, &test))
    }

    pub fn get(&self, key: Pattern) -> Option<Word> {
        self.find(|word| key.fits(word)).map(|at| self.0[at])
    }

    pub fn lowest_empty(&self) -> Option<usize> {
        self.find(|word| word == EMPTY)
    }

    /// Every word that passes, where few do.
    pub fn each(&self, test: impl Fn(Word) -> bool, mut found: impl FnMut(Word)) {
        for step in self.steps().iter().filter(|step| any(step, &test)) {
            step.iter().filter(|&&word| test(word)).for_each(|&word| found(word));
        }
    }

    /// Empties places whose word passes, at most so many; how many.
    pub fn drop_where(&mut self, most: usize, test: impl Fn(Word) -> bool) -> usize {
        let mut dropped = 0;
        for step in self.steps_mut() {
            if !any(step, &test) {
                continue;
            }
            for word in step {
                dropped += test(*word) as usize;
                *word = if test(*word) { EMPTY } else { *word };
            }
            if dropped == most {
                break;
            }
        }
        dropped
    }

    pub fn has_room(&self, count: usize) -> bool {
        let mut room = 0;
        self.steps().iter().any(|step| {
            room += step.iter().filter(|&&word| word == EMPTY).count();
            room >= count
        })
    }

    /// Puts words one after the other into the lowest empty places.
    pub fn put_all(&mut self, mut words: impl Iterator<Item = Word>) {
        for step in self.steps_mut().iter_mut().filter(|step| any(*step, |word| word == EMPTY)) {
            for place in step.iter_mut().filter(|place| **place == EMPTY) {
                match words.next() {
                    Some(word) => *place = word,
                    None => return,
                }
            }
        }
    }
}

fn any(step: &[Word; STEP], test: impl Fn(Word) -> bool) -> bool {
    step.iter().fold(false, |any, &word| any | test(word))
}
