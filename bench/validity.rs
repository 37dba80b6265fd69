//! What the library's test for validity costs beside its quadratic form: on chosen boxes, as the
//! tables fill, and on the worst of many generated ones.

use std::hint::black_box;

use second::author::Rng;
use tiligormis::ENTRIES;

use crate::boxes::damage;
use crate::contest::time;
use crate::inputs::{chosen, generated, Input, ANY, ORDINARY, VARIANTS};
use crate::quadratic;

/// Generated inputs of the search, and how many of the worst are measured again in all rounds.
const GENERATED: u64 = 300;
const AGAIN: usize = 10;
/// Rounds of the search are fewer.
const SEARCH_SHARE: usize = 10;
/// Damaged boxes of every chosen input.
const DAMAGED: u64 = 200;
/// Filled entries of each map.
const GROWTH: [usize; 4] = [ENTRIES / 8, ENTRIES / 4, ENTRIES / 2, ENTRIES];

// ---- What is compared, and of it what is measured.

fn growing(input: Input) -> [Input; GROWTH.len()] {
    GROWTH.map(|filled| Input { filled, ..input })
}

fn searched() -> impl Iterator<Item = Input> {
    chosen().into_iter().chain((1..=GENERATED).map(generated))
}

// ---- Agreement.

fn differ(input: &Input, variant: u64, says: [bool; 2]) -> String {
    format!("{}: {input}, variant {variant}: library and quadratic form say {says:?}", input.name)
}

/// Both must say yes to every box that is measured. How many boxes there are.
fn agree_on_valid() -> Result<usize, String> {
    let mut boxes = 0;
    for input in searched().chain(growing(ORDINARY)).chain(growing(ANY)) {
        for variant in 0..VARIANTS {
            let owned = input.made(variant);
            let says = [owned.shared().valid(), quadratic::valid(owned.shared())];
            if says != [true; 2] {
                return Err(differ(&input, variant, says));
            }
            boxes += 1;
        }
    }
    Ok(boxes)
}

/// Both must say the same of damaged boxes. How many are not valid, and how many are.
fn agree_on_damaged() -> Result<[u64; 2], String> {
    let mut counts = [0; 2];
    for (input, k) in chosen().iter().flat_map(|input| (0..DAMAGED).map(move |k| (input, k))) {
        let (variant, seed) = (k % VARIANTS, counts.iter().sum());
        let mut owned = input.made(variant);
        damage(&mut owned, &mut Rng::new(seed));
        let says = [owned.shared().valid(), quadratic::valid(owned.shared())];
        if says[0] != says[1] {
            return Err(format!("damage {seed}, {}", differ(input, variant, says)));
        }
        counts[says[0] as usize] += 1;
    }
    match counts.contains(&0) {
        true => Err(format!("all damaged boxes are valid, or none is: {counts:?}")),
        false => Ok(counts),
    }
}

/// What was compared, or where the two differ.
pub fn agree() -> Result<String, String> {
    let boxes = agree_on_valid()?;
    let [refused, kept] = agree_on_damaged()?;
    Ok(format!(
        "Library and quadratic form agree on {boxes} valid boxes and on {} damaged ones, of which \
         {refused} are not valid and {kept} are.",
        refused + kept
    ))
}

// ---- Measurement.

/// Microseconds of the library and of the quadratic form.
type Times = [f64; 2];

/// By turns in every round, each over tables of its own. Of every set of tables the least of all
/// rounds; the mean of these.
fn times(input: &Input, rounds: usize) -> Times {
    let [library_boxes, quadratic_boxes] = [input.all(), input.all()];
    let mut least = [[f64::INFINITY; VARIANTS as usize]; 2];
    for _ in 0..rounds {
        for (k, (library, quadratic)) in library_boxes.iter().zip(&quadratic_boxes).enumerate() {
            let spent = time(|| black_box(library.shared()).valid());
            least[0][k] = least[0][k].min(spent);
            let spent = time(|| quadratic::valid(black_box(quadratic.shared())));
            least[1][k] = least[1][k].min(spent);
        }
    }
    least.map(|each| each.iter().sum::<f64>() / VARIANTS as f64 / 1000.0)
}

fn ratio([library, quadratic]: Times) -> f64 {
    quadratic / library
}

fn heading(title: &str, last: [&str; 2]) {
    println!("\n{title}");
    println!(
        "{:<40} {:>6} {:>10} {:>12} {:>8} {:>8} {:>8}",
        "", "filled", "library us", "quadratic us", "quad/lib", last[0], last[1]
    );
}

/// A line, with the times of both as parts of those of another.
fn line(input: &Input, times: Times, other: Times) {
    let [library, quadratic] = times;
    println!(
        "{:<40} {:>6} {library:>10.1} {quadratic:>12.1} {:>8.2} {:>8.2} {:>8.2}",
        input.name,
        input.filled,
        ratio(times),
        library / other[0],
        quadratic / other[1]
    );
}

fn chosen_lines(rounds: usize) {
    let title = "Chosen boxes; at the end each form's time over its own on the ordinary";
    heading(title, ["lib/ord", "quad/ord"]);
    let ordinary = times(&ORDINARY, rounds);
    line(&ORDINARY, ordinary, ordinary);
    for input in &chosen()[1..] {
        line(input, times(input, rounds), ordinary);
    }
}

fn growth_lines(rounds: usize) {
    let title = "As the tables fill; at the end each form's time over its own of an eighth";
    heading(title, ["lib/8th", "quad/8th"]);
    for inputs in [growing(ORDINARY), growing(ANY)] {
        let all = inputs.map(|input| times(&input, rounds));
        for (input, times) in inputs.iter().zip(all) {
            line(input, times, all[0]);
        }
    }
}

type Measured = (Input, Times);

/// The first by an order, which is asked again of the first few after all rounds.
fn first(found: &mut [Measured], rounds: usize, order: impl Fn(Times) -> f64) -> Measured {
    let by = |one: &Measured, other: &Measured| order(one.1).total_cmp(&order(other.1));
    found.sort_by(by);
    let again = found[..AGAIN].iter().map(|&(input, _)| (input, times(&input, rounds)));
    again.min_by(by).expect("some were searched")
}

fn search_lines(rounds: usize) {
    let title =
        format!("The worst of these and of {GENERATED} generated inputs, over the ordinary");
    heading(&title, ["lib/ord", "quad/ord"]);
    let few = rounds.div_ceil(SEARCH_SHARE);
    let mut found: Vec<Measured> = searched().map(|input| (input, times(&input, few))).collect();
    let dearest = first(&mut found, rounds, |[library, _]| -library);
    found.retain(|(input, _)| input.filled == ENTRIES);
    let nearest = first(&mut found, rounds, ratio);
    let ordinary = times(&ORDINARY, rounds);
    let lines = [("dearest for the library", dearest), ("least ratio, full tables", nearest)];
    for (name, (input, times)) in lines {
        line(&Input { name, ..input }, times, ordinary);
        println!("    {}: {input}", input.name);
    }
}

pub fn table(rounds: usize) {
    println!(
        "The least of {rounds} rounds (of the search {}), the mean of {VARIANTS} sets of tables. \
         Filled are so many entries of each map, an eighth of that in slots, a fourth in pairs.",
        rounds.div_ceil(SEARCH_SHARE)
    );
    chosen_lines(rounds);
    growth_lines(rounds);
    search_lines(rounds);
}
