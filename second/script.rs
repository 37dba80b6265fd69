//! The box script: reading it line by line, running it, printing answers.

use std::io::{self, BufRead, Write};

use crate::log::{self, Reader};
use crate::machine::{
    Free, Lent, Machine, Span, UnitNumbers, ANSWER_NUMBERS, IDLE, ROW_NUMBERS, UNITS,
};
use crate::operate::{Answer, Row};
use crate::valid;

/// What one line says, taken alone.
#[derive(Clone, Copy, PartialEq, Eq, Debug)]
enum Line {
    Blank,
    Box([u64; 3]),
    Unit(UnitNumbers),
    Row(Row),
    Free,
}

/// A box line with the units that follow it.
#[derive(Clone, PartialEq, Eq, Debug)]
pub struct Setup {
    pub pages: u64,
    pub shared: Span,
    pub units: Vec<UnitNumbers>,
}

impl Setup {
    /// Starts a machine with lent memory and slices of the right lengths.
    pub fn start(&self) -> (u64, Machine) {
        Machine::start(self.pages, self.shared, &self.units, Lent::fitting(self.pages))
    }
}

/// What a script asks for, in order.
#[derive(Clone, PartialEq, Eq, Debug)]
pub enum Event {
    Start(Setup),
    Row(Row),
    Free,
    /// The line can't be read; nothing follows it.
    Bad,
}

/// Decimal digits only, of any length, as long as the value has 64 bits.
fn number(word: &[u8]) -> Option<u64> {
    word.iter().try_fold(0u64, |value, &byte| {
        let digit = byte.is_ascii_digit().then(|| u64::from(byte - b'0'))?;
        value.checked_mul(10)?.checked_add(digit)
    })
}

/// The same where there must be a digit.
pub fn decimal(word: &str) -> Option<u64> {
    (!word.is_empty()).then(|| number(word.as_bytes())).flatten()
}

/// Exactly as many numbers as there is room for.
fn numbers<const COUNT: usize>(words: &[&[u8]]) -> Option<[u64; COUNT]> {
    let values: Option<Vec<u64>> = words.iter().map(|word| number(word)).collect();
    values?.try_into().ok()
}

/// One to eight numbers, missing ones 0, `idle` for the target of 15 and 16.
fn row(words: &[&[u8]]) -> Option<Row> {
    let mut row = Row::default();
    if words.len() > row.len() {
        return None;
    }
    for (place, &word) in words.iter().enumerate() {
        let idle = place == 2 && (row[0] == 15 || row[0] == 16) && word == b"idle";
        row[place] = if idle { IDLE } else { number(word)? };
    }
    Some(row)
}

/// Reads a line without its end; `None` if it can't be read.
fn parse(line: &[u8]) -> Option<Line> {
    let text = line.split(|&byte| byte == b'#').next().unwrap_or_default();
    let words: Vec<&[u8]> =
        text.split(|&byte| byte == b' ' || byte == b'\t').filter(|word| !word.is_empty()).collect();
    match words.split_first() {
        None => Some(Line::Blank),
        Some((&b"box", rest)) => numbers(rest).map(Line::Box),
        Some((&b"unit", rest)) => numbers(rest).map(Line::Unit),
        Some((&b"free", rest)) => rest.is_empty().then_some(Line::Free),
        Some(_) => row(&words).map(Line::Row),
    }
}

/// The events of a script with the numbers of their lines. A start comes once
/// its units end, with the number of its box line.
pub struct Events<R> {
    input: R,
    line: u64,
    /// A box whose units may still go on, and its line.
    open: Option<(u64, Setup)>,
    any_box: bool,
    /// What the line that ended the units asks for.
    next: Option<Event>,
    over: bool,
}

impl<R: BufRead> Events<R> {
    pub fn new(input: R) -> Self {
        Events { input, line: 0, open: None, any_box: false, next: None, over: false }
    }

    /// The next line without its end, or `None` after the last.
    fn read_line(&mut self) -> io::Result<Option<Vec<u8>>> {
        let mut line = Vec::new();
        if self.input.read_until(b'\n', &mut line)? == 0 {
            return Ok(None);
        }
        self.line += 1;
        if line.ends_with(b"\n") {
            line.pop();
            if line.ends_with(b"\r") {
                line.pop();
            }
        }
        Ok(Some(line))
    }

    /// The event of a line, if it has one, after the start that it brings about.
    fn take(&mut self, line: &[u8]) -> Option<(u64, Event)> {
        let event = match parse(line) {
            Some(Line::Blank) => return None,
            Some(Line::Unit(unit)) => {
                if let Some((_, setup)) = &mut self.open {
                    // One unit too many decides the answer, so no more are kept.
                    if setup.units.len() <= UNITS {
                        setup.units.push(unit);
                    }
                    return None;
                }
                Event::Bad
            }
            Some(Line::Box([pages, base, count])) => {
                let shared = Span { base, count };
                self.any_box = true;
                let opened = Setup { pages, shared, units: Vec::new() };
                return self.open.replace((self.line, opened)).map(started);
            }
            Some(Line::Row(row)) if self.any_box => Event::Row(row),
            Some(Line::Free) if self.any_box => Event::Free,
            _ => Event::Bad,
        };
        match self.open.take() {
            Some(ended) => {
                self.next = Some(event);
                Some(started(ended))
            }
            None => Some((self.line, event)),
        }
    }

    fn advance(&mut self) -> io::Result<Option<(u64, Event)>> {
        if let Some(event) = self.next.take() {
            return Ok(Some((self.line, event)));
        }
        while let Some(line) = self.read_line()? {
            if let Some(event) = self.take(&line) {
                return Ok(Some(event));
            }
        }
        Ok(self.open.take().map(started))
    }
}

/// The start of a box whose units have ended.
fn started((line, setup): (u64, Setup)) -> (u64, Event) {
    (line, Event::Start(setup))
}

impl<R: BufRead> Iterator for Events<R> {
    type Item = io::Result<(u64, Event)>;

    fn next(&mut self) -> Option<Self::Item> {
        if self.over {
            return None;
        }
        let event = self.advance().transpose()?;
        self.over = matches!(event, Ok((_, Event::Bad)) | Err(_));
        Some(event)
    }
}

fn print_answer(output: &mut impl Write, numbers: &[u64]) -> io::Result<()> {
    let [number, index, dropped, word] = numbers else { return Ok(()) };
    writeln!(output, "{number} {index} {dropped} {word}")
}

fn print_free(output: &mut impl Write, free: Free) -> io::Result<()> {
    match free {
        Free { number: 0, count, lowest: Some(page) } => writeln!(output, "free {count} {page}"),
        Free { number: 0, count, lowest: None } => writeln!(output, "free {count} none"),
        Free { number, .. } => writeln!(output, "free refused {number}"),
    }
}

fn print_bad(output: &mut impl Write, line: u64) -> io::Result<()> {
    writeln!(output, "line {line}: not understood")
}

/// Rows that wait for the sequence entry.
struct Batch {
    rows: Vec<u64>,
    answers: Vec<u64>,
}

impl Batch {
    const ROWS: usize = 1024;

    fn new() -> Self {
        Batch { rows: Vec::new(), answers: vec![0; Self::ROWS * ANSWER_NUMBERS] }
    }

    fn add(&mut self, row: &Row) -> bool {
        self.rows.extend_from_slice(row);
        self.rows.len() == Self::ROWS * ROW_NUMBERS
    }

    /// Runs the rows; refused as a whole, each of them has that answer.
    fn flush(&mut self, machine: &mut Machine, output: &mut impl Write) -> io::Result<()> {
        let refusal = machine.sequence(&self.rows, &mut self.answers);
        let count = self.rows.len() / ROW_NUMBERS;
        for answer in self.answers.chunks_exact(ANSWER_NUMBERS).take(count) {
            match refusal {
                0 => print_answer(output, answer)?,
                number => print_answer(output, &Answer::refused(number).numbers())?,
            }
        }
        self.rows.clear();
        Ok(())
    }
}

/// Runs a script, rows between queries through the sequence entry in batches.
/// Gives the machine that stands at its end, nothing if a line can't be read.
pub fn run(input: impl BufRead, output: &mut impl Write) -> io::Result<Option<Machine>> {
    let mut readable = true;
    let mut machine = Machine::empty();
    let mut batch = Batch::new();
    for event in Events::new(input) {
        let (line, event) = event?;
        if let Event::Row(row) = event {
            if batch.add(&row) {
                batch.flush(&mut machine, output)?;
            }
            continue;
        }
        batch.flush(&mut machine, output)?;
        match event {
            Event::Start(setup) => {
                let (number, started) = setup.start();
                machine = started;
                writeln!(output, "start {number}")?;
            }
            Event::Free => print_free(output, machine.free())?,
            _ => {
                print_bad(output, line)?;
                readable = false;
            }
        }
    }
    batch.flush(&mut machine, output)?;
    Ok(readable.then_some(machine))
}

/// Writes the rows of a script as a log. Gives the line that ends it before
/// its time, and why.
pub fn write_log(
    input: impl BufRead,
    output: &mut impl Write,
) -> io::Result<Result<(), (u64, &'static str)>> {
    let mut boxes = 0;
    for event in Events::new(input) {
        let (line, event) = event?;
        let why = match event {
            Event::Start(_) => {
                boxes += 1;
                (boxes > 1).then_some("a second box")
            }
            Event::Row(row) => match log::record(&row) {
                Ok(bytes) => {
                    output.write_all(&bytes)?;
                    None
                }
                Err(number) => Some(log::meaning(number)),
            },
            Event::Free => None,
            Event::Bad => Some("not understood"),
        };
        if let Some(why) = why {
            return Ok(Err((line, why)));
        }
    }
    Ok(Ok(()))
}

/// A record's kind and arguments, and its answer.
fn print_record(output: &mut impl Write, row: &Row, answer: Answer) -> io::Result<()> {
    write!(output, "{}", row[0])?;
    for (number, _) in row[1..].iter().zip(log::widths(row[0])) {
        write!(output, " {number}")?;
    }
    write!(output, ": ")?;
    print_answer(output, &answer.numbers())
}

/// Runs a script, and then at most so many records of a log on the machine
/// that it leaves.
pub fn replay(
    input: impl BufRead,
    log: &[u8],
    most: u64,
    output: &mut impl Write,
) -> io::Result<()> {
    let Some(mut machine) = run(input, output)? else { return Ok(()) };
    let mut reader = Reader::new(log);
    let replay = log::replay(&mut machine, &mut reader, most);
    for (row, answer) in &replay.taken {
        print_record(output, row, *answer)?;
    }
    match replay.number {
        0 => {}
        1 => writeln!(output, "refused 1")?,
        number => writeln!(output, "byte {}: {}", reader.place, log::meaning(number))?,
    }
    writeln!(output, "taken {}", replay.taken.len())
}

/// Runs a script row by row through the one-operation entry. After each row
/// the state must be valid, and as before if the row was refused. Gives the
/// first line at which that fails, and why.
pub fn check(
    input: impl BufRead,
    output: &mut impl Write,
) -> io::Result<Result<(), (u64, String)>> {
    let mut machine = Machine::empty();
    let mut before = Machine::empty();
    let mut alive = false;
    for event in Events::new(input) {
        let (line, event) = event?;
        match event {
            Event::Start(setup) => {
                let (number, started) = setup.start();
                machine = started;
                before.clone_from(&machine);
                alive = number == 0;
                writeln!(output, "start {number}")?;
            }
            Event::Row(row) => {
                let answer = machine.operate(&row);
                print_answer(output, &answer.numbers())?;
                if let Err(why) = look(&before, &machine, alive, answer) {
                    return Ok(Err((line, why)));
                }
                if before != machine {
                    before.clone_from(&machine);
                }
            }
            Event::Free => print_free(output, machine.free())?,
            Event::Bad => print_bad(output, line)?,
        }
    }
    Ok(Ok(()))
}

/// What `check` asks of the state after one row.
pub(crate) fn look(
    before: &Machine,
    after: &Machine,
    alive: bool,
    answer: Answer,
) -> Result<(), String> {
    if answer.number != 0 && before != after {
        return Err(format!("refused with {} and yet changed", answer.number));
    }
    match valid::broken(after) {
        Some(clause) if alive => Err(format!("not valid: {clause}")),
        None if !alive => Err("valid after a refused start".to_string()),
        _ => Ok(()),
    }
}
