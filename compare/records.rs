//! One record: written at every limit and every place of a buffer, read under every header.

use second::log::record;
use second::machine::{OPERATIONS, ROW_NUMBERS};
use second::operate::{arguments, Row};

use crate::log::Run;
use crate::pack::Difference;

/// Numbers around the widths that an argument may have.
const LIMITS: [u64; 7] = [0, 1, 0xFFFF, 1 << 16, 0xFFFF_FFFF, 1 << 32, u64::MAX];
/// Every kind and some beyond, then numbers that are one of them where they are cut off.
const NEAR_KINDS: u64 = OPERATIONS + 4;
const FAR_KINDS: [u64; 8] =
    [65_535, 65_536, 65_537, 65_546, 1 << 32, (1 << 32) + 7, (1 << 63) + 1, u64::MAX];

fn kinds() -> impl Iterator<Item = u64> {
    (0..=NEAR_KINDS).chain(FAR_KINDS)
}

fn row_of(kind: u64, number: impl Fn(usize) -> u64) -> Row {
    std::array::from_fn(|place| if place == 0 { kind } else { number(place - 1) })
}

/// Rows of every kind with their arguments at all limits; what comes past them is 0, or at limits.
pub fn limits(run: &mut Run) -> Result<(), Difference> {
    let limit = |place: usize| LIMITS[place % LIMITS.len()];
    for kind in kinds() {
        let count = arguments(kind).map_or(0, <[_]>::len);
        for code in 0..LIMITS.len().pow(count as u32) {
            let argument = |place| limit(code / LIMITS.len().pow(place as u32));
            let past = |place| limit(code + 3 * place + 1);
            let judged = |place| place < count;
            let plain = row_of(kind, |at| if judged(at) { argument(at) } else { 0 });
            let full = row_of(kind, |at| if judged(at) { argument(at) } else { past(at) });
            run.write(&plain, 40, &[8])?;
            run.write(&full, 40, &[8])?;
        }
        for (place, number) in (0..ROW_NUMBERS - 1).flat_map(|at| LIMITS.map(|n| (at, n))) {
            run.write(&row_of(kind, |at| if at == place { number } else { 0 }), 40, &[8])?;
        }
    }
    Ok(())
}

/// A row with arguments of which no two bytes are alike.
fn plain_row(kind: u64) -> Row {
    row_of(kind, |place| 0x0403_0201 + 0x0404_0404 * place as u64)
}

/// Buffers from none to three bytes more than a record, behind up to eight others; every place in
/// them, and places past the end, of which some come round to the beginning with the record added.
pub fn buffers(run: &mut Run) -> Result<(), Difference> {
    for kind in 0..=NEAR_KINDS {
        let row = plain_row(kind);
        let mut wide = row;
        wide[1] = u64::MAX;
        let size = record(&row).map_or(4, |bytes| bytes.len());
        for length in 0..=size + 3 + 8 {
            let near = 0..=length as u64 + 2;
            let far = (0..=size as u64 + 1).map(|back| u64::MAX - back);
            for place in near.chain([1 << 31, 1 << 32, 1 << 63]).chain(far) {
                run.write(&row, length, &[place])?;
                run.write(&wide, length, &[place])?;
            }
        }
    }
    Ok(())
}

/// A good log, a cut one, one of no kind, and an empty one.
pub const LOGS: [&[u8]; 4] =
    [&[6, 0, 1, 0, 1, 0, 0, 0], &[6, 0, 1], &[2, 0, OPERATIONS as u8 + 1, 0], &[]];

/// Rows and places of other lengths, for good rows and ones of no kind, and for these logs.
pub fn lengths(run: &mut Run) -> Result<(), Difference> {
    let right = (ROW_NUMBERS, 1);
    let wrong = |rooms: &(usize, usize)| *rooms != right;
    let rooms = [0, 1, 7, 8, 9, 16].into_iter().flat_map(|row| [0, 1, 2].map(|place| (row, place)));
    for (numbers, places) in rooms.filter(wrong) {
        for kind in [1, 7, OPERATIONS, 0, OPERATIONS + 1] {
            let mut row = plain_row(kind).to_vec();
            row.resize(numbers, kind);
            run.write(&row, 40, &vec![3; places])?;
            run.write(&row, 0, &vec![3; places])?;
        }
        for log in LOGS {
            run.read_into(log, &mut vec![0; places], &mut vec![0; numbers])?;
        }
    }
    Ok(())
}

/// Lengths and kinds of which a header's bytes may tell, those with their bytes in wrong order too.
fn header_numbers() -> impl Iterator<Item = u16> + Clone {
    (0..=NEAR_KINDS as u16).chain([0x00FF, 0x0100, 0x0101, 0x0600, 0x1900, 40_000, 0xFFFF])
}

/// Every length with every kind and with from none to thirty bytes left, or as many as the long
/// ones claim, one less and one more; at the log's first byte and behind others.
pub fn headers(run: &mut Run) -> Result<(), Difference> {
    let body: Vec<u8> = (0..=0xFFFF_u32 + 3).map(|place| (place * 7 + 1) as u8).collect();
    for length in header_numbers() {
        let claimed = usize::from(length) + 2;
        let more = (claimed > 32).then_some([claimed - 1, claimed, claimed + 1]);
        for (kind, left) in header_numbers()
            .flat_map(|kind| (0..=30).chain(more.into_iter().flatten()).map(move |n| (kind, n)))
        {
            let header = [length.to_le_bytes(), kind.to_le_bytes()].concat();
            let record = || header.iter().chain(&body).take(left);
            let behind: Vec<u8> = [2, 0, 25].iter().chain(record()).copied().collect();
            run.read_on(&behind[3..], 0)?;
            run.read_on(&behind, 3)?;
        }
    }
    Ok(())
}
