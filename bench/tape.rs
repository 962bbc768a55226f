// The proved byte tape against the same tape written in Rust: the same records, the same answers, times as a ratio.
use std::time::{Duration, Instant};

const RECORDS: usize = 65_536;
const RECORD_BYTES: usize = 48;
const ROUNDS: usize = 40;

unsafe extern "C" {
    fn tape_bench_run(bytes: *mut u8, len: usize, numbers: *const u32, many: usize) -> u64;
}

fn proved(bytes: &mut [u8], numbers: &[u32]) -> u64 {
    unsafe { tape_bench_run(bytes.as_mut_ptr(), bytes.len(), numbers.as_ptr(), numbers.len()) }
}

#[derive(Clone, Copy)]
struct Row([u32; 12]);

impl Row {
    fn fair(&self) -> bool {
        let [product, _, price, quantity, buy, sell, buyer, seller, established, no_bust, mark, _] = self.0;
        product <= 31
            && price <= 1_000_000
            && (1..=1_000_000).contains(&quantity)
            && buy >= 1
            && sell >= 1
            && (1..=999).contains(&buyer)
            && (1..=999).contains(&seller)
            && established <= 1_000_000
            && no_bust <= 100_000
            && mark <= 3
    }
}

// Fair numbers without a pattern that a compiler could know.
fn samples() -> Vec<u32> {
    let mut state: u32 = 1;
    let mut below = |n: u32| {
        state = state.wrapping_mul(1_664_525).wrapping_add(1_013_904_223);
        (state >> 8) % n
    };
    let mut numbers = Vec::new();
    for i in 0..RECORDS as u32 {
        let price = below(1_000_001);
        numbers.extend([
            below(32),
            i / 3,
            price,
            below(1_000_000) + 1,
            below(1 << 24) + 1,
            below(1 << 24) + 1,
            below(999) + 1,
            below(999) + 1,
            price,
            below(100_001),
            below(4),
            i / 10_000,
        ]);
    }
    numbers
}

struct Tape<'a> {
    bytes: &'a mut [u8],
    used: usize,
}

impl Tape<'_> {
    fn at(&self, place: usize) -> Row {
        let record = &self.bytes[RECORD_BYTES * place..RECORD_BYTES * (place + 1)];
        let mut row = [0; 12];
        for (number, four) in row.iter_mut().zip(record.chunks_exact(4)) {
            *number = u32::from_be_bytes([four[0], four[1], four[2], four[3]]);
        }
        Row(row)
    }

    fn room(&self) -> usize {
        (self.bytes.len() / RECORD_BYTES).min(RECORDS) - self.used
    }

    fn add(&mut self, row: Row) -> bool {
        if self.room() == 0 || self.used > 0 && row.0[1] < self.at(self.used - 1).0[1] {
            return false;
        }
        let record = &mut self.bytes[RECORD_BYTES * self.used..RECORD_BYTES * (self.used + 1)];
        for (four, number) in record.chunks_exact_mut(4).zip(row.0) {
            four.copy_from_slice(&number.to_be_bytes());
        }
        self.used += 1;
        true
    }

    fn read(&self, n: usize) -> Option<Row> {
        if n < 1 || n > self.used {
            return None;
        }
        let row = self.at(n - 1);
        row.fair().then_some(row)
    }
}

#[inline(never)]
fn plain(bytes: &mut [u8], numbers: &[u32]) -> u64 {
    let mut tape = Tape { bytes, used: 0 };
    for numbers in numbers.chunks_exact(12) {
        let row = Row(numbers.try_into().unwrap());
        if !row.fair() || !tape.add(row) {
            return 0;
        }
    }
    let mut digest: u64 = 0;
    for n in 1..=tape.used {
        let Some(row) = tape.read(n) else { return 0 };
        digest = digest
            .wrapping_mul(31)
            .wrapping_add(u64::from(row.0[2]))
            .wrapping_add(u64::from(row.0[3]))
            .wrapping_add(u64::from(row.0[7]));
    }
    digest
}

fn timed(run: impl FnOnce() -> u64) -> (u64, Duration) {
    let start = Instant::now();
    let digest = std::hint::black_box(run());
    (digest, start.elapsed())
}

fn main() {
    let numbers = samples();
    let mut ours = vec![0u8; RECORDS * RECORD_BYTES];
    let mut theirs = vec![0u8; RECORDS * RECORD_BYTES];
    let mut best = [Duration::MAX; 2];
    for _ in 0..ROUNDS {
        ours.fill(0);
        theirs.fill(0);
        let (a, s) = timed(|| proved(&mut ours, &numbers));
        let (b, t) = timed(|| plain(std::hint::black_box(&mut theirs), std::hint::black_box(&numbers)));
        assert!(a != 0 && a == b, "the answers differ: {a} and {b}");
        assert!(ours == theirs, "the tapes differ");
        best = [best[0].min(s), best[1].min(t)];
    }
    println!("{RECORDS} records added and read, best of {ROUNDS}: answers and bytes equal");
    println!("proved {:?}, Rust {:?}, ratio {:.2}", best[0], best[1], best[0].as_secs_f64() / best[1].as_secs_f64());
}
