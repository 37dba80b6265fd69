//! The log: records written and read.

use super::*;

/// A row of each kind, in order. No two arguments of a row are alike, each has four bytes that
/// differ, and the value of a write has eight.
fn every_kind() -> [Row; KINDS as usize] {
    const A: u64 = 0x1312_1110;
    const B: u64 = 0x2322_2120;
    const C: u64 = 0x3332_3130;
    const D: u64 = 0x4342_4140;
    const E: u64 = 0x5352_5150;
    const VALUE: u64 = 0xf7f6_f5f4_f3f2_f1f0;
    [
        rows::add_vm(A),
        rows::remove_vm(A),
        rows::assign_page(A, B),
        rows::reclaim_page(A, B),
        rows::share_page(A, B, C),
        rows::unshare_page(A, B, C),
        rows::cpu_map(A, B, C, D, E),
        rows::dma_map(A, B, C, D, E),
        rows::cpu_unmap(A, B),
        rows::dma_unmap(A, B),
        rows::insert_region(A, B, C, D, E),
        rows::remove_region(A, B, C, D, E),
        rows::dma_insert_region(A, B, C, D, E),
        rows::dma_remove_region(A, B, C, D, E),
        rows::switch_cpu(A, None),
        rows::bind_device(A, None),
        rows::cpu_fill(A, B),
        rows::dma_fill(A, B),
        rows::empty_cpu_slot(A),
        rows::empty_dma_slot(A),
        rows::cpu_read(A, B, C),
        rows::dma_read(A, B, C),
        rows::cpu_write(A, B, C, VALUE),
        rows::dma_write(A, B, C, VALUE),
        rows::data_barrier(),
        rows::instruction_barrier(),
        rows::retire_vm(A),
    ]
}

/// The record of a row, by the manual: how many of its numbers are arguments is how many are not 0.
fn record(row: &Row) -> Vec<u8> {
    let arguments = row[1..].iter().take_while(|argument| **argument != 0).enumerate();
    let writes = [CPU_WRITE, DMA_WRITE].contains(&row[0]);
    let body: Vec<u8> = arguments
        .flat_map(|(at, argument)| {
            let bytes = if writes && at == 3 { 8 } else { 4 };
            argument.to_le_bytes()[..bytes].to_vec()
        })
        .collect();
    let head = [body.len() as u16 + 2, row[0] as u16];
    head.iter().flat_map(|number| number.to_le_bytes()).chain(body).collect()
}

#[test]
fn every_kind_is_written_and_read_back() {
    let rows = every_kind();
    let bytes: Vec<u8> = rows.iter().flat_map(record).collect();
    let mut buffer = std::vec![0xa5; bytes.len() + 3];
    let mut writer = LogWriter::new(&mut buffer);
    let mut longest = 0;
    for row in &rows {
        let place = writer.place();
        assert_eq!(writer.write(row), Ok(()), "{row:?}");
        longest = longest.max(writer.place() - place);
        assert_eq!(writer.written(), &bytes[..writer.place()], "{row:?}");
    }
    assert_eq!((writer.place(), longest), (bytes.len(), RECORD_BYTES));
    assert_eq!(buffer[bytes.len()..], [0xa5; 3]);
    let mut reader = LogReader::new(&bytes);
    assert!(reader.by_ref().eq(rows.map(Ok)));
    assert_eq!((reader.place(), reader.next()), (bytes.len(), None));
}

/// Numbers beyond the arguments are left out, and read as 0.
#[test]
fn other_numbers_are_left_out() {
    for row in every_kind() {
        let filled = row.map(|number| if number == 0 { u64::MAX } else { number });
        let mut buffer = [0; RECORD_BYTES];
        let mut writer = LogWriter::new(&mut buffer);
        writer.write(&filled).unwrap();
        assert_eq!(LogReader::new(writer.written()).next(), Some(Ok(row)));
    }
}

/// Writing is refused so, and leaves buffer and place.
fn refuses(buffer: &mut [u8], place: usize, row: &Row, refusal: LogRefusal) {
    let before = buffer.to_vec();
    let mut writer = LogWriter::at(buffer, place);
    assert_eq!(writer.write(row), Err(refusal), "{row:?} at {place}");
    assert_eq!(writer.place(), place);
    assert_eq!(buffer, before);
}

#[test]
fn records_that_do_not_fit_are_refused() {
    for row in every_kind() {
        let bytes = record(&row);
        let mut buffer = [0xa5; 3 + RECORD_BYTES];
        for short in 0..bytes.len() {
            refuses(&mut buffer[..3 + short], 3, &row, LogRefusal::DoesNotFit);
        }
        for place in [buffer.len(), buffer.len() + 1, usize::MAX] {
            refuses(&mut buffer, place, &row, LogRefusal::DoesNotFit);
        }
        let mut writer = LogWriter::at(&mut buffer[..3 + bytes.len()], 3);
        assert_eq!(writer.write(&row), Ok(()));
        assert_eq!(writer.written()[3..], bytes);
        assert_eq!(writer.written()[..3], [0xa5; 3]);
    }
    refuses(&mut [], 0, &rows::data_barrier(), LogRefusal::DoesNotFit);
    assert_eq!(LogWriter::at(&mut [7; 2], 5).written(), [7; 2]);
}

/// The machine refuses each such row too, so a log that lacks it lacks no change of a box.
#[test]
fn arguments_over_four_bytes_are_refused() {
    for row in every_kind() {
        let value = if [CPU_WRITE, DMA_WRITE].contains(&row[0]) { 4 } else { 0 };
        let arguments = row[1..].iter().take_while(|argument| **argument != 0).count();
        for at in (1..=arguments).filter(|at| *at != value) {
            for over in [1 << 32, u64::MAX] {
                let mut row = row;
                row[at] = over;
                refuses(&mut [0; RECORD_BYTES], 0, &row, LogRefusal::DoesNotFit);
                let mut owned = whole();
                assert!(owned.lent().operation(row).accepted().is_err(), "{row:?}");
                assert!(owned == whole());
            }
        }
    }
}

#[test]
fn unknown_kinds_are_refused() {
    for kind in [0, KINDS + 1, 1 << 16 | ADD_VM, 1 << 32 | ADD_VM, u64::MAX] {
        for argument in [0, u64::MAX] {
            let row = [kind, argument, 0, 0, 0, 0, 0, 0];
            refuses(&mut [0; RECORD_BYTES], 0, &row, LogRefusal::UnknownKind);
            refuses(&mut [], 9, &row, LogRefusal::UnknownKind);
        }
    }
}

/// Reading gives this error, once, and stays at the record.
fn unreadable(log: &[u8], offset: usize, refusal: LogRefusal) {
    let mut reader = LogReader::at(log, offset);
    assert_eq!(reader.next(), Some(Err(LogError { refusal, offset })), "{log:?}");
    assert_eq!((reader.next(), reader.place()), (None, offset), "{log:?}");
}

#[test]
fn records_cut_short_are_refused() {
    for row in every_kind() {
        let bytes = record(&row);
        for length in 1..bytes.len() {
            unreadable(&bytes[..length], 0, LogRefusal::CutShort);
        }
    }
    // whatever length they say
    for length in 0..3 {
        for left in 1..4 {
            unreadable(&[length, 0, DATA_BARRIER as u8][..left], 0, LogRefusal::CutShort);
        }
    }
    // before the kind is looked at, and whatever it is
    unreadable(&[3, 0, PAST, 0], 0, LogRefusal::CutShort);
    unreadable(&[255, 255, 1, 0, 1, 0, 0, 0], 0, LogRefusal::CutShort);
}

#[test]
fn other_kinds_and_lengths_are_refused() {
    for kind in [[0, 0], [PAST, 0], [1, 1], [255, 255]] {
        for length in [0, 1, 2, 6] {
            let log = [length, 0, kind[0], kind[1], 1, 0, 0, 0];
            unreadable(&log, 0, LogRefusal::UnknownKind);
        }
    }
    for row in every_kind() {
        let right = record(&row).len() - 2;
        let mut log = [0; 32];
        log[2] = row[0] as u8;
        for length in (0..=30).filter(|length| *length != right) {
            log[0] = length as u8;
            unreadable(&log, 0, LogRefusal::WrongLength);
        }
        log[0] = right as u8;
        assert!(LogReader::new(&log).next().is_some_and(|read| read.is_ok()));
    }
}

#[test]
fn there_is_nothing_at_the_end_and_past_it() {
    let log = record(&rows::add_vm(1));
    for place in [log.len(), log.len() + 1, usize::MAX] {
        let mut reader = LogReader::at(&log, place);
        assert_eq!((reader.next(), reader.place()), (None, place));
    }
    assert_eq!(LogReader::new(&[]).next(), None);
}

/// Any bytes are read to an end, and what is read is written as it was.
#[test]
fn what_was_read_is_written_as_it_was() {
    let mut seed = 1u64;
    let mut random = || {
        seed = seed.wrapping_mul(6364136223846793005).wrapping_add(1442695040888963407);
        seed >> 33
    };
    let kinds = every_kind();
    for _ in 0..200 {
        let records = (0..random() % 20).map(|_| kinds[random() as usize % kinds.len()]);
        let mut log: Vec<u8> = records.collect::<Vec<_>>().iter().flat_map(record).collect();
        if !log.is_empty() {
            let at = random() as usize % log.len();
            log[at] = random() as u8;
        }
        let mut buffer = std::vec![0; log.len()];
        let mut writer = LogWriter::new(&mut buffer);
        let mut reader = LogReader::new(&log);
        for row in reader.by_ref().filter_map(Result::ok) {
            writer.write(&row).unwrap();
        }
        assert_eq!(writer.written(), &log[..reader.place()]);
    }
}
