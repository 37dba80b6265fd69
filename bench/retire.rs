//! A VM retired: by operation 27, and by single rows that come to the same.

use std::hint::black_box;

use face::Row;
use tiligormis::Owned;

use crate::cases::{self, Level};
use crate::contest::{contest, time, Machines, Times};
use crate::measure::{heading, joined, less, line, ratio};

const LEVELS: [Level; 2] = [Level::Half, Level::Full];

/// The library's box after rows that all machines accept, from the level on.
fn end(level: Level, rows: &[Row]) -> Owned {
    let mut machines = Machines::started(&cases::leaver_setup());
    machines.accept(&cases::before_retire(level));
    machines.accept(rows);
    machines.library.owned
}

/// Nanoseconds of operation 27 and of the single rows. Neither can be carried out again, so the state
/// is made anew before each, from a start on; each is one sequence, less a sequence of no rows on the
/// same state.
fn times(level: Level, rounds: usize) -> [Times; 2] {
    let (setup, before) = (cases::leaver_setup(), cases::before_retire(level));
    let ways = [cases::retire(), cases::retire_by_parts()];
    let [bare, whole, parts] = contest(&mut Machines::started(&setup), rounds, |machine| {
        let mut turn = |rows: &[Row]| {
            machine.start(&setup);
            machine.sequence(&before);
            let bare = time(|| machine.sequence(black_box(&[])));
            [bare, time(|| machine.sequence(black_box(rows)))]
        };
        let [[one, whole], [other, parts]] = ways.each_ref().map(|rows| turn(rows));
        [one.min(other), whole, parts]
    });
    [less(whole, bare), less(parts, bare)]
}

/// The table, after it has been seen that both ways leave the same box.
pub fn lines(rounds: usize) -> Result<(), String> {
    let parts = cases::retire_by_parts();
    if LEVELS.iter().any(|&level| end(level, &cases::retire()) != end(level, &parts)) {
        return Err("operation 27 and the single rows leave different boxes".to_string());
    }
    let all = LEVELS.map(|level| times(level, rounds));
    heading("A VM retired, at half-full / full tables, ns", "");
    line("27 retire VM", &all.map(|[whole, _]| whole));
    line("the same end by single rows", &all.map(|[_, parts]| parts));
    let over = |place| joined(&all, |[whole, parts]| ratio(whole[place] / parts[place]));
    let [library, a, b, c, d] = std::array::from_fn(over);
    println!(
        "\n27 over the single rows: library {library}; (a) {a}; (b) {b}; with vector loops (a) {c}; \
         (b) {d}"
    );
    Ok(())
}
