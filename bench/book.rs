// The proved sweep against the same search written in Rust: the same tables, the same answers, times as a ratio.
use std::time::{Duration, Instant};

const ROUNDS: usize = 5;

#[repr(C)]
#[derive(Clone, Copy, PartialEq)]
struct Row {
    number: u32,
    place: u32,
    product: u32,
    side: u32,
    price: u32,
    rest: u32,
    participant: u32,
    duration: u32,
    date: u32,
    entered: u32,
}

unsafe extern "C" {
    fn book_bench_run(table: *mut Row, places: usize, bytes: *mut u8, len: usize, limit: u32, lots: u32) -> u64;
}

fn proved(table: &mut [Row], bytes: &mut [u8], limit: u32, lots: u32) -> u64 {
    unsafe { book_bench_run(table.as_mut_ptr(), table.len(), bytes.as_mut_ptr(), bytes.len(), limit, lots) }
}

impl Row {
    fn fair(&self) -> bool {
        let lasts = self.duration == 3 || (self.date == 0 && matches!(self.duration, 1 | 2 | 4));
        self.number >= 1
            && self.place >= 1
            && self.side <= 1
            && self.price <= 1_000_000
            && (1..=1_000_000).contains(&self.rest)
            && (1..=999).contains(&self.participant)
            && lasts
    }

    fn key(&self) -> (u32, u32) {
        (self.price, self.place)
    }
}

const FREE: Row = Row { number: 0, place: 0, product: 0, side: 0, price: 0, rest: 0, participant: 0, duration: 0, date: 0, entered: 0 };

// The best sell behind a cursor, by price, place and index.
fn seek(table: &[Row], after: Option<(u32, u32, usize)>) -> Option<(usize, Row)> {
    let mut found: Option<(usize, Row)> = None;
    for (i, row) in table.iter().take(65_536).enumerate() {
        if !row.fair() || row.side != 1 || row.product != 0 {
            continue;
        }
        let (price, place) = row.key();
        if after.is_some_and(|c| (price, place, i) <= c) {
            continue;
        }
        if found.is_none_or(|(_, best)| row.key() < best.key()) {
            found = Some((i, *row));
        }
    }
    found
}

// First the plan with nothing changed, then the sweep, as the proved one does.
fn in_rust(table: &mut [Row], bytes: &mut [u8], limit: u32, lots: u32) -> u64 {
    let (mut rest, mut due, mut cursor) = (lots, 0usize, None);
    while rest > 0 {
        let Some((i, row)) = seek(table, cursor) else { break };
        if row.price > limit {
            break;
        }
        rest -= rest.min(row.rest);
        due += 1;
        cursor = Some((row.price, row.place, i));
    }
    if due > bytes.len() / 48 {
        return 0;
    }
    let (mut rest, mut trades) = (lots, 0usize);
    while rest > 0 {
        let Some((i, row)) = seek(table, None) else { break };
        if row.price > limit {
            break;
        }
        let m = rest.min(row.rest);
        table[i] = if m == row.rest { FREE } else { Row { rest: row.rest - m, ..row } };
        let record = [0, 0, row.price, m, 1, row.number, 7, row.participant, limit, 0, 0, 0u32];
        for (k, n) in record.iter().enumerate() {
            bytes[48 * trades + 4 * k..48 * trades + 4 * k + 4].copy_from_slice(&n.to_be_bytes());
        }
        rest -= m;
        trades += 1;
    }
    u64::from(lots - rest) * 1_000_000 + trades as u64
}

// Sells of ten lots at prices without a pattern that a compiler could know.
fn sells(places: usize) -> Vec<Row> {
    let mut state: u32 = 1;
    (0..places as u32)
        .map(|i| {
            state = state.wrapping_mul(1_664_525).wrapping_add(1_013_904_223);
            let price = 1_000 + (state >> 8) % 500_000;
            Row { number: i + 1, place: i + 1, product: 0, side: 1, price, rest: 10, participant: 1, duration: 4, date: 0, entered: 0 }
        })
        .collect()
}

fn best_of(mut run: impl FnMut() -> Duration) -> Duration {
    (0..ROUNDS).map(|_| run()).min().unwrap_or_default()
}

fn main() {
    println!("places  fills   proved        rust          ratio");
    for places in [100usize, 1_000, 10_000, 65_536] {
        for fills in [1u32, 10, 100] {
            let table = sells(places);
            let mut tables = (table.clone(), table.clone());
            let mut tapes = (vec![0u8; 48 * 128], vec![0u8; 48 * 128]);
            let lots = fills * 10;
            let mut answers = (0, 0);
            let ours = best_of(|| {
                tables.0.copy_from_slice(&table);
                let start = Instant::now();
                answers.0 = proved(&mut tables.0, &mut tapes.0, 1_000_000, lots);
                start.elapsed()
            });
            let theirs = best_of(|| {
                tables.1.copy_from_slice(&table);
                let start = Instant::now();
                answers.1 = in_rust(&mut tables.1, &mut tapes.1, 1_000_000, lots);
                start.elapsed()
            });
            assert!(answers.0 == answers.1 && answers.0 != 0, "answers differ");
            assert!(tables.0 == tables.1 && tapes.0 == tapes.1, "tables or tapes differ");
            println!("{places:6}  {fills:5}  {ours:>12.1?}  {theirs:>12.1?}  {:.2}", ours.as_secs_f64() / theirs.as_secs_f64());
        }
    }
}
