//! Logs replayed.

use super::*;

const UNTOUCHED: Answer = Answer { number: 9, index: 9, dropped: 9, word: 9 };

/// Rows of which some are refused, some fill slots and some drop them.
const ROWS: [Row; 8] = [
    rows::add_vm(3),
    rows::add_vm(3),
    rows::cpu_fill(0, 18),
    rows::dma_fill(0, 16),
    rows::cpu_write(0, 17, 3, 0x0123_4567_89ab_cdef),
    rows::cpu_read(0, 17, 3),
    rows::dma_unmap(1, 18),
    rows::assign_page(3, 5),
];

fn log_of(rows: &[Row]) -> Vec<u8> {
    let mut buffer = std::vec![0; rows.len() * RECORD_BYTES];
    let mut log = LogWriter::new(&mut buffer);
    rows.iter().for_each(|row| log.write(row).unwrap());
    log.written().to_vec()
}

/// What the sequence of these rows leaves and answers.
fn sequenced(rows: &[Row]) -> (Owned, Vec<Answer>) {
    let mut owned = whole();
    let mut answers = std::vec![UNTOUCHED; rows.len()];
    owned.lent().sequence(rows, &mut answers).unwrap();
    (owned, answers)
}

#[test]
fn a_replay_in_pieces_is_the_sequence() {
    let log = log_of(&ROWS);
    let (expected, answered) = sequenced(&ROWS);
    assert!(expected.cpu_cache != whole().cpu_cache && expected.dma_cache != whole().dma_cache);
    assert!(answered.iter().any(|answer| answer.number != ACCEPTED));
    for piece in 1..=ROWS.len() + 1 {
        let mut owned = whole();
        let (mut place, mut answers) = (0, Vec::new());
        loop {
            let mut some = std::vec![UNTOUCHED; piece];
            let replayed = owned.lent().replay(&log, place, piece, &mut some).unwrap();
            assert_eq!(replayed.readable(), Ok(replayed.taken));
            place = replayed.place;
            assert!(some[replayed.taken..].iter().all(|answer| *answer == UNTOUCHED));
            answers.extend(&some[..replayed.taken]);
            if replayed.taken < piece {
                break;
            }
        }
        assert_eq!((place, &answers), (log.len(), &answered), "{piece} at a time");
        assert!(owned == expected);
    }
}

#[test]
fn as_many_are_taken_as_are_asked_for() {
    let log = log_of(&ROWS);
    for most in 0..=ROWS.len() {
        let mut owned = whole();
        let replayed = owned.lent().replay(&log, 0, most, &mut []).unwrap();
        let place = log_of(&ROWS[..most]).len();
        assert_eq!(replayed, Replayed { taken: most, place, stopped: None });
        assert!(owned == sequenced(&ROWS[..most]).0);
    }
}

#[test]
fn answers_are_written_as_far_as_there_is_room() {
    let log = log_of(&ROWS);
    let (_, answered) = sequenced(&ROWS);
    for room in [0, 1, 3, ROWS.len(), ROWS.len() + 2] {
        let mut answers = std::vec![UNTOUCHED; room];
        let replayed = whole().lent().replay(&log, 0, usize::MAX, &mut answers).unwrap();
        assert_eq!(replayed.taken, ROWS.len());
        let written = room.min(ROWS.len());
        assert_eq!(answers[..written], answered[..written]);
        assert!(answers[written..].iter().all(|answer| *answer == UNTOUCHED));
    }
}

/// Slots that records before it filled are stored too.
#[test]
fn an_unreadable_record_ends_it() {
    let before = log_of(&ROWS);
    let (expected, answered) = sequenced(&ROWS);
    for (bytes, refusal) in [
        (&[6, 0, 1, 0, 1, 0, 0][..], LogRefusal::CutShort),
        (&[6, 0, PAST, 0, 1, 0, 0, 0][..], LogRefusal::UnknownKind),
        (&[5, 0, 1, 0, 1, 0, 0, 0][..], LogRefusal::WrongLength),
    ] {
        let log = [&before, bytes, &before].concat();
        let log = if refusal == LogRefusal::CutShort { &log[..before.len() + 7] } else { &log };
        let mut owned = whole();
        let mut answers = std::vec![UNTOUCHED; ROWS.len() + 1];
        let replayed = owned.lent().replay(log, 0, usize::MAX, &mut answers).unwrap();
        let place = before.len();
        assert_eq!(replayed, Replayed { taken: ROWS.len(), place, stopped: Some(refusal) });
        assert_eq!(replayed.readable(), Err(LogError { refusal, offset: place }));
        assert!(owned == expected);
        assert_eq!(answers[..ROWS.len()], answered);
        assert_eq!(answers[ROWS.len()], UNTOUCHED);
        // it is not looked at where no more records are asked for
        let replayed = whole().lent().replay(log, 0, ROWS.len(), &mut []).unwrap();
        assert_eq!(replayed, Replayed { taken: ROWS.len(), place, stopped: None });
    }
}

#[test]
fn nothing_is_taken_at_the_end_and_past_it() {
    let log = log_of(&ROWS);
    for place in [log.len(), log.len() + 1, usize::MAX] {
        let mut owned = whole();
        let replayed = owned.lent().replay(&log, place, usize::MAX, &mut []).unwrap();
        assert_eq!(replayed, Replayed { taken: 0, place, stopped: None });
        assert!(owned == whole());
    }
    let replayed = whole().lent().replay(&[], 0, usize::MAX, &mut []).unwrap();
    assert_eq!(replayed, Replayed { taken: 0, place: 0, stopped: None });
}
