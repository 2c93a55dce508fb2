//! Logs and places in them.

use crate::common::Rows;
use second::log::{clocks_fit, coverage, Columns, Coverage, Log, Passed, Place};
use second::Refusal;

fn log(rows: &Rows) -> Log<'_> {
    Log::new(rows.columns()).unwrap()
}

fn refused(clocks: &[u64], known: &[u32], values: &[u32]) -> bool {
    let columns = Columns {
        clocks,
        known,
        values,
    };
    matches!(Log::new(columns), Err(Refusal::UnfitLog))
}

#[test]
fn validity() {
    assert!(!refused(&[], &[], &[]));
    assert!(!refused(&[1, 1 << 48], &[0, 0], &[0, 0]));
    assert!(refused(&[0], &[0], &[0]));
    assert!(refused(&[(1 << 48) + 1], &[0], &[0]));
    assert!(refused(&[1, 0], &[0, 0], &[0, 0]));
    assert!(refused(&[1], &[], &[0]));
    assert!(refused(&[1], &[0], &[]));
    assert!(refused(&[], &[0], &[0]));
    assert!(!refused(&[1; 1024], &[0; 1024], &[0; 1024]));
    assert!(refused(&[1; 1025], &[0; 1025], &[0; 1025]));
    assert!(!clocks_fit(0) && clocks_fit(1) && clocks_fit(1 << 48) && !clocks_fit((1 << 48) + 1));
}

#[test]
fn places() {
    let (rows, no_rows) = (Rows::new(&[(2, 0, 0), (1, 0, 0)]), Rows::default());
    let (log, empty) = (log(&rows), log(&no_rows));
    let holds = |row, used| log.holds(Place { row, used });
    assert!(holds(0, 0) && holds(0, 1) && !holds(0, 2));
    assert!(holds(1, 0) && !holds(1, 1));
    assert!(holds(2, 0) && !holds(2, 1) && !holds(3, 0) && !holds(usize::MAX, 0));
    assert!(empty.holds(Place::default()));
}

/// Every clock of a log as its place, then the end.
fn all_places(rows: &Rows) -> Vec<Place> {
    let mut places = vec![];
    for (row, &clocks) in rows.clocks.iter().enumerate() {
        places.extend((0..clocks).map(|used| Place { row, used }));
    }
    places.push(Place {
        row: rows.clocks.len(),
        used: 0,
    });
    places
}

#[test]
fn waits_agree_with_counting_clock_by_clock() {
    let rows = Rows::new(&[(2, 0, 0), (1, 0, 0), (4, 0, 0), (3, 0, 0)]);
    let log = log(&rows);
    let places = all_places(&rows);
    let total = places.len() - 1;
    assert_eq!(log.total(), total as u64);
    for (from, &place) in places.iter().enumerate() {
        assert!(log.holds(place));
        assert_eq!(log.left(place), (total - from) as u64);
        for wanted in 0..total + 3 {
            let to = (from + wanted).min(total);
            let expected = Passed {
                place: places[to],
                clocks: (to - from) as u64,
                done: from + wanted <= total,
            };
            assert_eq!(log.wait(place, wanted as u64), expected);
        }
    }
}

#[test]
fn ewaits_agree_with_counting_clock_by_clock() {
    let rows = Rows::new(&[(2, 0, 1), (1, 5, 1), (4, 4, 4), (3, 1 << 31 | 1, 1 << 31)]);
    let log = log(&rows);
    let places = all_places(&rows);
    let total = places.len() - 1;
    for (from, &place) in places.iter().enumerate() {
        for event in 0..=255u8 {
            for value in [0u8, 1, 2, 255] {
                let shows = |p: &Place| {
                    event < 32
                        && p.row < 4
                        && rows.known[p.row] >> event & 1 == 1
                        && rows.values[p.row] >> event & 1 == u32::from(value)
                };
                let found = (from..total).find(|&i| shows(&places[i]));
                let to = found.unwrap_or(total);
                let expected = Passed {
                    place: places[to],
                    clocks: (to - from) as u64,
                    done: found.is_some(),
                };
                assert_eq!(log.ewait(place, event, value), expected);
            }
        }
    }
}

/// What is expected of a wait or an ewait.
fn passed(place: Place, clocks: u64, done: bool) -> Passed {
    Passed {
        place,
        clocks,
        done,
    }
}

#[test]
fn ends_of_a_log() {
    let (rows, no_rows) = (Rows::new(&[(32, 0, 0)]), Rows::default());
    let (log, empty) = (log(&rows), log(&no_rows));
    let end = Place { row: 1, used: 0 };
    let start = Place::default();
    assert_eq!(log.wait(start, 32), passed(end, 32, true));
    assert_eq!(log.wait(start, 33), passed(end, 32, false));
    assert_eq!(log.wait(end, 0), passed(end, 0, true));
    assert_eq!(log.wait(end, 1), passed(end, 0, false));
    assert_eq!(log.ewait(end, 0, 0), passed(end, 0, false));
    assert_eq!(empty.wait(start, 0), passed(start, 0, true));
    assert_eq!(empty.ewait(start, 0, 0), passed(start, 0, false));
    assert_eq!((empty.total(), empty.left(start), empty.rows()), (0, 0, 0));
}

#[test]
fn places_outside_the_log_pass_nothing_without_the_test() {
    let rows = Rows::new(&[(2, 0, 0)]);
    let log = log(&rows);
    for place in [Place { row: 9, used: 4 }, Place { row: 0, used: 9 }] {
        assert_eq!(log.left(place), 0);
        assert_eq!(log.wait(place, 5), passed(log.end(), 0, false));
        assert_eq!(log.ewait(place, 0, 0), passed(log.end(), 0, false));
    }
}

#[test]
fn row_coverage() {
    let covers = |known, first_unknown| Coverage {
        known,
        first_unknown,
    };
    assert_eq!(coverage(0), covers(0, 0));
    assert_eq!(coverage(u32::MAX), covers(32, 32));
    assert_eq!(coverage(2), covers(1, 0));
    assert_eq!(coverage(0x8000_0007), covers(4, 3));
    assert_eq!(coverage(0x7fff_ffff), covers(31, 31));
}
