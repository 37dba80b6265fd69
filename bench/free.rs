//! What the free query costs beside the test for validity, with which it begins, and its search beside
//! the same in Rust, page by page and by whole words.

use std::hint::black_box;

use tiligormis::{Owned, PAGES, SET_WORDS, VMS};

use crate::contest::time;
use crate::inputs::{Input, ORDINARY};

const POOL: usize = 0;
const SHARED: usize = 1;

/// The row of the pages that a VM holds for DMA.
fn dma(vm: u64) -> usize {
    3 + 2 * vm as usize
}

type Found = (u64, Option<u64>);

/// The free pages, each page asked for in the pool's row and in every DMA row.
fn by_pages(owned: &Owned) -> Found {
    let holds = |row: usize, page: u64| {
        owned.sets[row * SET_WORDS + page as usize / 64] >> (page % 64) & 1 == 1
    };
    let free = |&page: &u64| holds(POOL, page) && !(0..VMS).any(|vm| holds(dma(vm), page));
    let pages = 0..owned.machine.pages;
    (pages.clone().filter(free).count() as u64, pages.clone().find(free))
}

/// The same by words of 64 pages; a page at N or above is in no set of a valid box.
fn by_words(owned: &Owned) -> Found {
    let word = |k: usize| {
        let held = (0..VMS).fold(0, |held, vm| held | owned.sets[dma(vm) * SET_WORDS + k]);
        owned.sets[POOL * SET_WORDS + k] & !held
    };
    let count = (0..SET_WORDS).map(|k| u64::from(word(k).count_ones())).sum();
    let lowest = (0..SET_WORDS).find(|&k| word(k) != 0);
    (count, lowest.map(|k| k as u64 * 64 + u64::from(word(k).trailing_zeros())))
}

fn by_library(owned: &Owned) -> Found {
    let pages = owned.shared().free().expect("the box is valid");
    (pages.count, pages.lowest())
}

/// A box without mappings: all but the shared span in the pool, held for DMA by a VM or by none.
fn pool_alone(holder: Option<u64>) -> Owned {
    let mut owned = Input { filled: 0, ..ORDINARY }.made(0);
    owned.sets[2 * SET_WORDS..].fill(0);
    for k in 0..SET_WORDS {
        owned.sets[POOL * SET_WORDS + k] = !owned.sets[SHARED * SET_WORDS + k];
        if let Some(vm) = holder {
            owned.sets[dma(vm) * SET_WORDS + k] = owned.sets[POOL * SET_WORDS + k];
        }
    }
    owned
}

/// Microseconds of the query, of the test for validity, and of the two searches in Rust: by turns, of
/// each the least of all rounds.
fn times(owned: &Owned, rounds: usize) -> [f64; 4] {
    let mut least = [f64::INFINITY; 4];
    for _ in 0..rounds {
        let spent = [
            time(|| by_library(black_box(owned))),
            time(|| black_box(owned).shared().valid()),
            time(|| by_pages(black_box(owned))),
            time(|| by_words(black_box(owned))),
        ];
        least = std::array::from_fn(|k| least[k].min(spent[k]));
    }
    least.map(|nanoseconds| nanoseconds / 1000.0)
}

/// Compares what the three find, then prints a line for each box.
pub fn table(rounds: usize) -> Result<(), String> {
    let boxes = [
        ("full tables, all of the pool held", ORDINARY.made(0)),
        ("all in the pool, none held", pool_alone(None)),
        ("all in the pool, held by the last VM", pool_alone(Some(VMS - 1))),
    ];
    println!(
        "| {PAGES} pages, us | query | validity | query over validity | search over pages in Rust \
         | over words |"
    );
    println!("|---|---|---|---|---|---|");
    for (name, owned) in boxes {
        let found = [by_library, by_pages, by_words].map(|form| form(&owned));
        if found != [found[0]; 3] {
            return Err(format!("{name}: library, pages and words find {found:?}"));
        }
        let [query, valid, pages, words] = times(&owned, rounds);
        let search = query - valid;
        let over = [query / valid, search / pages, search / words];
        println!(
            "| {name} | {query:.1} | {valid:.1} | {:.2} | {:.2} | {:.1} |",
            over[0], over[1], over[2]
        );
    }
    Ok(())
}
