//! The incident, told to the library from Rust. A converter was retired, its pages went to the next
//! converter, and the first one's card reader still wrote through a translation that nobody had
//! taken back. Here every step of that is refused or does no harm. Then the stale translation is
//! planted by hand: the library refuses the whole box until it is taken out. The next converter is
//! retired in one call, with all that it has. Meanwhile every operation is logged, and at the end the
//! log is replayed on a second box, as support would with a customer's.

use tiligormis::*;

const PAGES_HERE: usize = 16;
const SHARED_PAGE: u64 = 15;
const SHARED_PAGES: u64 = 1;

// Converter B gets the pages of A, and C, under A's number, those of B. A preview guest looks at B's.
const A: u64 = 1;
const B: u64 = 2;
const C: u64 = A;
const PREVIEW: u64 = 3;
const CPU_OF_A: u64 = 0;
const CPU_OF_B: u64 = 1;
const CPU_OF_C: u64 = CPU_OF_A;
const CPU_OF_PREVIEW: u64 = 2;
const READER_OF_A: u64 = 0;
const READER_OF_B: u64 = 1;

const GUEST_OF_A: u64 = 16;
const GUEST_OF_B: u64 = 64;
const GUEST_OF_C: u64 = GUEST_OF_A;
const GUEST_OF_PREVIEW: u64 = 8;
const PAGE: u64 = 0;
const COUNT: u64 = 4;
const ACCESS: u64 = READ | WRITE;
const WORD: u64 = 0;
const LINE: usize = 60;

/// A box, and the operation log that is kept of it: a record for each operation, one behind the other.
/// A firmware would keep it in a ring or in a file.
struct Ingest {
    machine: Owned,
    log: Vec<u8>,
    records: usize,
}

impl Ingest {
    /// Carries out an operation and logs it. What a box that is not valid refused is left out, since
    /// the box that it is replayed on is valid.
    fn operation(&mut self, row: Row) -> Result<Answer, Refusal> {
        let result = self.machine.lent().operation(row).accepted().map_err(Refusal::from);
        if result != Err(Refusal::StateNotValid) {
            let mut record = [0; RECORD_BYTES];
            let mut writer = LogWriter::new(&mut record);
            if writer.write(&row).is_ok() {
                self.log.extend(writer.written());
                self.records += 1;
            }
        }
        result
    }
}

/// What a refusal means, without the details that follow its colon.
fn meaning(refusal: Refusal) -> String {
    refusal.to_string().split(':').next().unwrap_or_default().to_string()
}

fn say(what: &str, answer: &str) {
    println!("  {what:LINE$} {answer}");
}

/// Says that something was accepted, and what it gave, or why it was refused.
fn done<T>(what: &str, result: Result<T, Refusal>, gave: impl Fn(T) -> String) {
    let answer = match result {
        Ok(given) => format!("accepted{}", gave(given)),
        Err(refusal) => format!("refused with {}, {}", refusal.number(), meaning(refusal)),
    };
    say(what, &answer);
}

fn nothing(_: ()) -> String {
    String::new()
}

fn step(ingest: &mut Ingest, what: &str, row: Row) {
    done(what, ingest.operation(row), |answer| match answer.dropped {
        _ if row[0] == CPU_READ => format!(", the word is {}", answer.word),
        0 => String::new(),
        dropped => format!(", cached translations dropped: {dropped}"),
    });
}

fn reader_writes(ingest: &mut Ingest, what: &str, value: u64) {
    step(ingest, what, rows::dma_write(READER_OF_A, GUEST_OF_A, WORD, value));
}

fn b_reads(ingest: &mut Ingest, what: &str) {
    step(ingest, what, rows::cpu_read(CPU_OF_B, GUEST_OF_B, WORD));
}

fn b_asks(ingest: &mut Ingest) {
    let row = rows::insert_region(B, GUEST_OF_B, PAGE, COUNT, ACCESS);
    step(ingest, "B asks for the pages", row);
}

fn free_pages(machine: &Owned) {
    done("how many pages are free?", machine.shared().free(), |pages| match pages.lowest() {
        None => ", none is".to_string(),
        Some(page) => format!(", {} are, the lowest is {page}", pages.count),
    });
}

/// Where the reader's translation of A's first guest page is cached, and the page that it goes to.
fn reader_slot(machine: &Owned) {
    let place = find_slot(&machine.dma_cache, READER_OF_A, A, GUEST_OF_A);
    let held = place.and_then(|place| Some((place, machine.dma_cache[place].translation()?)));
    let text = match held {
        None => "none".to_string(),
        Some((place, held)) => format!("slot {place}, onto page {}", held.page),
    };
    say("which slot holds the reader's translation?", &text);
}

fn ask(question: &str, yes: bool) {
    say(question, if yes { "yes" } else { "no" });
}

fn start() -> Owned {
    let units = [(A, GUEST_OF_A), (B, GUEST_OF_B)].map(|(vm, guest)| Unit {
        vm,
        guest,
        page: PAGE,
        count: COUNT,
        access: ACCESS,
        mark: MARK_BOTH,
    });
    let mut machine = Owned::new(PAGES_HERE);
    let result = machine.lent().start(PAGES_HERE as u64, SHARED_PAGE, SHARED_PAGES, &units);
    done("start, with two converters planned onto the same four pages", result, nothing);
    machine
}

fn at_work(ingest: &mut Ingest) {
    println!("Converter A at work");
    step(ingest, "A is added", rows::add_vm(A));
    let inserted = rows::insert_region(A, GUEST_OF_A, PAGE, COUNT, ACCESS);
    step(ingest, "its region goes in for CPUs", inserted);
    let inserted = rows::dma_insert_region(A, GUEST_OF_A, PAGE, COUNT, ACCESS);
    step(ingest, "and for devices", inserted);
    step(ingest, "A runs on a CPU", rows::switch_cpu(CPU_OF_A, Some(A)));
    step(ingest, "its card reader is bound to it", rows::bind_device(READER_OF_A, Some(A)));
    step(ingest, "the reader caches a translation", rows::dma_fill(READER_OF_A, GUEST_OF_A));
    reader_slot(&ingest.machine);
    reader_writes(ingest, "the reader writes a lens name, 1111", 1111);
    step(ingest, "A reads it", rows::cpu_read(CPU_OF_A, GUEST_OF_A, WORD));
}

fn retired_badly(ingest: &mut Ingest) {
    println!("A retired badly: its region is taken from CPUs, its card reader forgotten");
    step(ingest, "A is removed", rows::remove_vm(A));
    let removed = rows::remove_region(A, GUEST_OF_A, PAGE, COUNT, ACCESS);
    step(ingest, "its region is taken from CPUs", removed);
    free_pages(&ingest.machine);
    reader_writes(ingest, "the reader writes 2222, which harms nobody yet", 2222);
    step(ingest, "converter B is added", rows::add_vm(B));
    b_asks(ingest);
}

fn retired_properly(ingest: &mut Ingest) {
    println!("A retired properly, and its pages given to B");
    let removed = rows::dma_remove_region(A, GUEST_OF_A, PAGE, COUNT, ACCESS);
    step(ingest, "A's region is taken from devices too", removed);
    reader_slot(&ingest.machine);
    reader_writes(ingest, "the reader writes 3333", 3333);
    b_asks(ingest);
    step(ingest, "B runs on a CPU", rows::switch_cpu(CPU_OF_B, Some(B)));
    b_reads(ingest, "B reads the word where A's lens name was");
    let written = rows::cpu_write(CPU_OF_B, GUEST_OF_B, WORD, 4444);
    step(ingest, "B writes a lens name of its own, 4444", written);
    reader_writes(ingest, "the reader writes 5555", 5555);
    b_reads(ingest, "B reads its lens name");
}

/// Writes into the cache behind the library's back, as a fault would.
fn planted(ingest: &mut Ingest) {
    println!("The stale translation planted by hand");
    let place = 0;
    let stale = Translation {
        port: READER_OF_A,
        vm: A,
        guest: GUEST_OF_A,
        page: PAGE,
        access: ACCESS,
        generation: 0,
    };
    let filled = fill_slot(&mut ingest.machine.dma_cache, place, stale);
    done("a slot is filled as it was when A was at work", filled, nothing);
    reader_slot(&ingest.machine);
    ask("is the box valid?", ingest.machine.shared().valid());
    let before = ingest.machine.clone();
    reader_writes(ingest, "the reader writes 6666", 6666);
    b_reads(ingest, "B reads its lens name");
    free_pages(&ingest.machine);
    ask("is every byte of the box as it was?", ingest.machine == before);
    done("the slot is emptied", empty_slot(&mut ingest.machine.dma_cache, place), nothing);
    reader_slot(&ingest.machine);
    ask("is the box valid?", ingest.machine.shared().valid());
    reader_writes(ingest, "the reader writes 7777", 7777);
    b_reads(ingest, "B reads its lens name");
}

fn gone(ingest: &mut Ingest) {
    println!("A gone");
    step(ingest, "A is removed", rows::remove_vm(A));
    step(ingest, "its CPU becomes idle", rows::switch_cpu(CPU_OF_A, None));
    step(ingest, "its reader is bound to nobody", rows::bind_device(READER_OF_A, None));
    step(ingest, "A is removed", rows::remove_vm(A));
    reader_writes(ingest, "the reader writes 8888", 8888);
    step(ingest, "the reader is bound to A", rows::bind_device(READER_OF_A, Some(A)));
    b_reads(ingest, "B reads its lens name");
}

fn preview_reads(ingest: &mut Ingest, what: &str) {
    step(ingest, what, rows::cpu_read(CPU_OF_PREVIEW, GUEST_OF_PREVIEW, WORD));
}

fn previewed(ingest: &mut Ingest) {
    println!("B at work, and a preview guest that looks at its page");
    let inserted = rows::dma_insert_region(B, GUEST_OF_B, PAGE, COUNT, ACCESS);
    step(ingest, "B's region goes in for devices too", inserted);
    step(ingest, "its card reader is bound to it", rows::bind_device(READER_OF_B, Some(B)));
    step(ingest, "the reader caches a translation", rows::dma_fill(READER_OF_B, GUEST_OF_B));
    let written = rows::dma_write(READER_OF_B, GUEST_OF_B, WORD, 9999);
    step(ingest, "the reader writes a lens name, 9999", written);
    step(ingest, "a preview guest is added", rows::add_vm(PREVIEW));
    step(ingest, "B lends it the page", rows::share_page(B, PREVIEW, PAGE));
    let mapped = rows::cpu_map(PREVIEW, GUEST_OF_PREVIEW, PAGE, READ, 0);
    step(ingest, "the guest maps it, to read", mapped);
    let switched = rows::switch_cpu(CPU_OF_PREVIEW, Some(PREVIEW));
    step(ingest, "the guest runs on a CPU", switched);
    let filled = rows::cpu_fill(CPU_OF_PREVIEW, GUEST_OF_PREVIEW);
    step(ingest, "the guest caches a translation", filled);
    preview_reads(ingest, "the guest reads the lens name");
}

/// One call takes its mappings and the guest's, the loan, both cached translations, its pages and B.
fn retired_in_one_call(ingest: &mut Ingest) {
    println!("B retired in one call, and its pages given to C");
    step(ingest, "B is retired", rows::retire_vm(B));
    step(ingest, "its CPU becomes idle", rows::switch_cpu(CPU_OF_B, None));
    step(ingest, "B is retired", rows::retire_vm(B));
    step(ingest, "its reader is bound to nobody", rows::bind_device(READER_OF_B, None));
    step(ingest, "B is retired", rows::retire_vm(B));
    free_pages(&ingest.machine);
    let written = rows::dma_write(READER_OF_B, GUEST_OF_B, WORD, 1234);
    step(ingest, "the reader writes 1234", written);
    preview_reads(ingest, "the guest reads the lens name");
    step(ingest, "converter C is added, under A's number", rows::add_vm(C));
    let inserted = rows::insert_region(C, GUEST_OF_C, PAGE, COUNT, ACCESS);
    step(ingest, "C asks for the pages", inserted);
    step(ingest, "C runs on a CPU", rows::switch_cpu(CPU_OF_C, Some(C)));
    let read = rows::cpu_read(CPU_OF_C, GUEST_OF_C, WORD);
    step(ingest, "C reads the word where B's lens name was", read);
}

/// A second box, started as the first was, takes the log. It ends where the first one is.
fn replayed(ingest: &Ingest) {
    println!("The log replayed on a second machine");
    let size = format!("{}, in {} bytes", ingest.records, ingest.log.len());
    say("how many records has the log?", &size);
    let mut second = start();
    let result = second.lent().replay(&ingest.log, 0, ingest.records, &mut []);
    done("the log is replayed", result, |replayed| {
        format!(", records carried out: {}", replayed.taken)
    });
    free_pages(&second);
    ask("is every byte of the second box as in the first?", second == ingest.machine);
}

fn main() {
    println!("The machine");
    let mut ingest = Ingest { machine: start(), log: Vec::new(), records: 0 };
    at_work(&mut ingest);
    retired_badly(&mut ingest);
    retired_properly(&mut ingest);
    planted(&mut ingest);
    gone(&mut ingest);
    previewed(&mut ingest);
    retired_in_one_call(&mut ingest);
    replayed(&ingest);
}
