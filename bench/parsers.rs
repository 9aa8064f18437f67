//! Measures parsers and writers of formats over the port and over the Rust crate, in one process and in turns.
//!
//!     parsers [--rounds N] [--millis N] [--only TEXT]                     times, ratios and the limit
//!     parsers --list                                                      the workloads with their functions and sides
//!     parsers --single orig|port|slice|over|limit WORKLOAD [--items N]    one call of one side, for callgrind
//!
//! The port is the library that is linked; README.md lists its functions. `slice` is the port over its own streams,
//! `over` its `SliceReader`, and the limit is original_parsers/limit.rs.
extern crate original_parsers;

type Read = extern "C" fn(u32, *const u8, usize, u64) -> u64;
type Write = extern "C" fn(u32, u64, u64, *mut u8, usize) -> u64;

#[derive(Clone, Copy)]
enum Function {
    Read(Read),
    Write(Write),
}

macro_rules! function {
    ($kind:ident -) => {
        None
    };
    (read $name:literal) => {{
        unsafe extern "C" {
            #[link_name = $name]
            safe fn read(order: u32, data: *const u8, len: usize, count: u64) -> u64;
        }
        Some(Function::Read(read))
    }};
    (write $name:literal) => {{
        unsafe extern "C" {
            #[link_name = $name]
            safe fn write(order: u32, count: u64, seed: u64, out: *mut u8, len: usize) -> u64;
        }
        Some(Function::Write(write))
    }};
}

/// Each line has the number of items, the writer of a read's input (`-`: random bytes), and the functions of the Rust
/// crate, of the port over std's streams, over its own streams, by `over`, and of the limit.
macro_rules! works {
    ($($kind:ident $name:ident $items:literal $input:tt $orig:tt $port:tt $slice:tt $over:tt [$($limit:literal)*];)*) => {
        vec![$(Work {
            name: concat!(stringify!($kind), "_", stringify!($name)),
            items: $items,
            input: function!(write $input),
            orig: function!($kind $orig),
            port: function!($kind $port),
            slice: function!($kind $slice),
            over: function!($kind $over),
            limits: vec![$(function!($kind $limit)),*],
        }),*]
    };
}

struct Work {
    name: &'static str,
    items: u64,
    input: Option<Function>,
    orig: Option<Function>,
    port: Option<Function>,
    slice: Option<Function>,
    over: Option<Function>,
    limits: Vec<Option<Function>>,
}

#[rustfmt::skip]
fn works() -> Vec<Work> {
    works! {
        read golomb 8000 "orig_write_golomb" "orig_read_golomb" "bench_read_golomb" "bench_read_golomb_slice" "bench_read_golomb_over" ["cursor_read_golomb" "buffer_read_golomb"];
        read rice 100000 "orig_write_rice" "orig_read_rice" "bench_read_rice" "bench_read_rice_slice" "bench_read_rice_over" ["cursor_read_rice" "buffer_read_rice"];
        read unary60 30000 "orig_write_unary60" "orig_read_unary60" "bench_read_unary60" "bench_read_unary60_slice" "bench_read_unary60_over" ["cursor_read_unary60" "buffer_read_unary60"];
        read symbols 100000 "orig_write_symbols" "orig_read_symbols" "bench_read_symbols" "bench_read_symbols_slice" - ["cursor_read_symbols" "buffer_read_symbols"];
        read protocol 8000 "orig_write_protocol" "orig_read_protocol" "bench_read_protocol" "bench_read_protocol_slice" "bench_read_protocol_over" ["record_read_protocol" "buffer_read_protocol"];
        read packed 12000 "orig_write_packed" "orig_read_packed" "bench_read_packed" "bench_read_packed_slice" "bench_read_packed_over" ["record_read_packed" "buffer_read_packed"];
        read adts 3000 "orig_write_adts" "orig_read_adts" "bench_read_adts" "bench_read_adts_slice" "bench_read_adts_over" ["record_read_adts"];
        read parse 60000 - "orig_read_parse" "bench_read_parse" "bench_read_parse_slice" "bench_read_parse_over" ["record_read_parse" "buffer_read_parse"];
        read flags 200000 - "orig_read_flags" "bench_read_flags" "bench_read_flags_slice" "bench_read_flags_over" ["record_read_flags" "buffer_read_flags"];
        read pcm16 120000 - "orig_read_pcm16" "bench_read_pcm16" "bench_read_pcm16_slice" "bench_read_pcm16_over" ["record_read_pcm16" "buffer_read_pcm16"];
        read const13 150000 - "orig_read_const13" "bench_read_const13" "bench_read_const13_slice" "bench_read_const13_over" ["cursor_read_const13" "buffer_read_const13"];
        read var13 150000 - "orig_read_var13" "bench_read_var13" "bench_read_var13_slice" "bench_read_var13_over" ["cursor_read_var13" "buffer_read_var13"];
        read checked 100000 - "orig_read_checked" "bench_read_checked" "bench_read_checked_slice" - [];
        read seek 50000 - "orig_read_seek" "bench_read_seek" "bench_read_seek_slice" - [];
        read skip 100 - "orig_read_skip" "bench_read_skip" "bench_read_skip_slice" - [];
        read bytevec 4000 - "orig_read_bytevec" "bench_read_bytevec" "bench_read_bytevec_slice" - [];
        read cursor 150000 - "orig_read_cursor" "bench_read_cursor" - - [];
        read bufreader 150000 - "orig_read_bufreader" "bench_read_bufreader" "bench_read_bufreader_slice" - [];
        read script 4000 "orig_write_packed" - "bench_read_script" "bench_read_script_slice" - [];
        write golomb 8000 - "orig_write_golomb" "bench_write_golomb" "bench_write_golomb_slice" - ["store_write_golomb"];
        write rice 100000 - "orig_write_rice" "bench_write_rice" "bench_write_rice_slice" - ["store_write_rice"];
        write symbols 100000 - "orig_write_symbols" "bench_write_symbols" "bench_write_symbols_slice" - ["store_write_symbols"];
        write protocol 8000 - "orig_write_protocol" "bench_write_protocol" "bench_write_protocol_slice" - ["store_write_protocol"];
        write packed 12000 - "orig_write_packed" "bench_write_packed" "bench_write_packed_slice" - ["store_write_packed"];
        write adts 3000 - "orig_write_adts" "bench_write_adts" "bench_write_adts_slice" - [];
        write build 60000 - "orig_write_build" "bench_write_build" "bench_write_build_slice" - [];
        write const13 150000 - "orig_write_const13" "bench_write_const13" "bench_write_const13_slice" - ["store_write_const13"];
        write vec 150000 - "orig_write_vec" "bench_write_vec" "bench_write_vec_slice" - [];
        write bufwriter 150000 - "orig_write_bufwriter" "bench_write_bufwriter" - - [];
        write record 20 - "orig_write_record" - "bench_write_record_slice" - [];
        write script 4000 - - "bench_write_script" "bench_write_script_slice" - [];
    }
}

const SIZE: usize = 1 << 18;
const ROOM: usize = 2 * SIZE;
const SEED: u64 = 20_260_101;
const REFUSED: u64 = u64::MAX;

/// The processor time of this thread in seconds. It does not include the time of other processes.
fn now() -> f64 {
    #[repr(C)]
    struct Time {
        seconds: i64,
        nanoseconds: i64,
    }
    unsafe extern "C" {
        safe fn clock_gettime(clock: i32, time: &mut Time) -> i32;
    }
    const THREAD: i32 = 3;
    let mut time = Time { seconds: 0, nanoseconds: 0 };
    assert_eq!(clock_gettime(THREAD, &mut time), 0, "a clock");
    time.seconds as f64 + time.nanoseconds as f64 * 1e-9
}

impl Function {
    fn run(self, order: u32, data: &[u8], out: &mut [u8], items: u64) -> u64 {
        match self {
            Function::Read(read) => read(order, data.as_ptr(), data.len(), items),
            Function::Write(write) => write(order, items, SEED, out.as_mut_ptr(), out.len()),
        }
    }

    /// Returns the function's result with the written bytes mixed in.
    fn told(self, order: u32, data: &[u8], items: u64) -> u64 {
        let mut out = vec![0u8; ROOM];
        let answer = self.run(order, data, &mut out, items);
        let written = if matches!(self, Function::Write(_)) { &out[..] } else { &[] };
        if answer == REFUSED {
            return REFUSED;
        }
        written.iter().fold(answer, |sum, byte| sum.wrapping_mul(31).wrapping_add(u64::from(*byte))) >> 1
    }
}

impl Work {
    fn data(&self, order: u32) -> Vec<u8> {
        let Some(input) = self.input else {
            let mut state = 12345u64;
            let byte = |_| {
                state = state.wrapping_mul(6364136223846793005).wrapping_add(1442695040888963407);
                (state >> 56) as u8
            };
            return (0..SIZE).map(byte).collect();
        };
        let mut out = vec![0u8; ROOM];
        let n = input.run(order, &[], &mut out, self.items);
        assert_ne!(n, REFUSED, "the input can't be made");
        out.truncate(n as usize);
        out
    }
}

/// The median of some times or ratios; none if there are none.
fn median(values: impl Iterator<Item = f64>) -> Option<f64> {
    let mut values: Vec<f64> = values.collect();
    values.sort_by(f64::total_cmp);
    values.get(values.len() / 2).copied()
}

const ORDERS: [(u32, &str); 2] = [(0, "be"), (1, "le")];

/// A workload in one order of bits.
struct Case {
    name: String,
    order: u32,
    work: Work,
}

fn cases() -> Vec<Case> {
    let named = |order, o| move |work: Work| Case { name: format!("{}-{o}", work.name.replace('_', "-")), order, work };
    ORDERS.into_iter().flat_map(|(order, o)| works().into_iter().map(named(order, o))).collect()
}

/// The places of the sides in what is measured of a workload. The limit's functions come after them.
const ORIG: usize = 0;
const PORT: usize = 1;
const SLICE: usize = 2;
const OVER: usize = 3;
const LIMITS: usize = 4;

impl Work {
    fn sides(&self) -> Vec<(&'static str, Option<Function>)> {
        let named = [("orig", self.orig), ("port", self.port), ("slice", self.slice), ("over", self.over)];
        named.into_iter().chain(self.limits.iter().map(|limit| ("limit", *limit))).collect()
    }
}

/// Prints the workloads, with the function, the number of items and the sides of each.
fn list(cases: &[Case]) {
    for case in cases {
        let sides = case.work.sides().into_iter().filter(|side| side.0 != "limit" && side.1.is_some());
        let named: Vec<&str> = sides.map(|side| side.0).collect();
        println!("{}\t{}\t{}\t{}", case.name, case.work.name, case.work.items, named.join(" "));
    }
}

/// Makes one call of one side, and prints what it returns.
fn single(case: &Case, side: &str, items: u64) {
    let function = case.work.sides().into_iter().find(|named| named.0 == side).and_then(|named| named.1);
    let items = items.min(case.work.items);
    let answer = function.map_or(REFUSED, |it| it.told(case.order, &case.work.data(case.order), items));
    println!("{} items {items} answer {answer}", case.name);
}

impl Case {
    /// Returns the functions that are there, and how many of them return or write something else than the first.
    fn agreeing(&self, data: &[u8]) -> (Vec<Option<Function>>, usize) {
        let (mut wanted, mut wrong) = (None, 0);
        let mut checked = |side: Option<Function>| {
            // A missing function returns what a failed call does.
            let told = side.map_or(REFUSED, |it| it.told(self.order, data, self.work.items));
            let equal = told == REFUSED || *wanted.get_or_insert(told) == told;
            wrong += usize::from(!equal);
            side.filter(|_| equal && told != REFUSED)
        };
        let sides = self.work.sides().into_iter().map(|side| checked(side.1)).collect();
        (sides, wrong)
    }

    /// Returns the nanoseconds an item of each side in each round.
    fn rounds(&self, sides: &[Option<Function>], data: &[u8], rounds: u64, millis: u64) -> Vec<Vec<f64>> {
        let mut out = vec![0u8; ROOM];
        let mut time = |side: Function, times: u64| {
            let start = now();
            for _ in 0..times {
                std::hint::black_box(side.run(self.order, std::hint::black_box(data), &mut out, self.work.items));
            }
            (now() - start) / (times * self.work.items) as f64 * 1e9
        };
        let mut rows = vec![Vec::new(); sides.len()];
        let Some(first) = sides.iter().flatten().next() else {
            return rows;
        };
        // The number of calls in a turn that fills the wanted time.
        let times = ((millis as f64 * 1e6 / (time(*first, 2) * self.work.items as f64)) as u64).max(1);
        for round in 0..rounds as usize {
            for turn in 0..sides.len() {
                // The side that begins changes from round to round.
                let side = (turn + round) % sides.len();
                if let Some(function) = sides[side] {
                    rows[side].push(time(function, times));
                }
            }
        }
        rows
    }
}

/// The times of a workload: nanoseconds an item, and ratios.
struct Times {
    medians: [Option<f64>; LIMITS],
    limit: Option<f64>,
    /// The port over std's streams, over its own and by `over`, as multiples of the Rust crate's times.
    ratios: [Option<f64>; 3],
    /// The port in memory as a multiple of the limit: by `over`, or else over its own streams.
    by_limit: Option<f64>,
}

impl Times {
    fn of(rows: &[Vec<f64>]) -> Times {
        let medians: Vec<Option<f64>> = rows.iter().map(|row| median(row.iter().copied())).collect();
        let there = (LIMITS..rows.len()).filter(|side| medians[*side].is_some());
        let limit = there.min_by(|a, b| medians[*a].partial_cmp(&medians[*b]).expect("times"));
        // Other load slows both sides of a round: so the ratio is the median of the ratios of the rounds.
        let ratio = |over: usize, under: usize| median(rows[over].iter().zip(&rows[under]).map(|(a, b)| a / b));
        let own = if rows[OVER].is_empty() { SLICE } else { OVER };
        Times {
            medians: [ORIG, PORT, SLICE, OVER].map(|side| medians[side]),
            limit: limit.and_then(|side| medians[side]),
            ratios: [PORT, SLICE, OVER].map(|side| ratio(side, ORIG)),
            by_limit: limit.and_then(|side| ratio(own, side)),
        }
    }

    fn print(&self, name: &str) {
        let said = |value: Option<f64>, digits: usize| value.map_or("-".into(), |v| format!("{v:.digits$}"));
        print!("{name:20} {:>10}", said(self.medians[ORIG], 2));
        for (median, ratio) in self.medians[PORT..].iter().zip(self.ratios) {
            print!(" {:>10} {:>7}", said(*median, 2), said(ratio, 2));
        }
        println!(" {:>10} {:>9}", said(self.limit, 2), said(self.by_limit, 2));
    }
}

/// Prints the geometric mean of each kind of ratios.
fn print_means(measured: &[(&str, Times)]) {
    let kinds = ["over std's streams", "over its own streams", "by over", "in memory, by the limit"];
    for (place, kind) in kinds.iter().enumerate() {
        for work in ["read", "write"] {
            let of_kind = measured.iter().filter(|it| it.0.starts_with(work));
            let ratios = of_kind.filter_map(|it| it.1.ratios.get(place).copied().unwrap_or(it.1.by_limit));
            let logs: Vec<f64> = ratios.map(f64::ln).collect();
            if !logs.is_empty() {
                let mean = (logs.iter().sum::<f64>() / logs.len() as f64).exp();
                let worst = logs.iter().fold(f64::MIN, |a, b| a.max(*b)).exp();
                let count = logs.len();
                println!("{work}, {kind}: workloads {count}, geometric mean of times {mean:.3}, worst {worst:.3}");
            }
        }
    }
}

fn main() {
    let words: Vec<String> = std::env::args().skip(1).collect();
    let after = |name: &str| words.iter().position(|w| w == name).and_then(|p| words.get(p + 1));
    let number = |name: &str, default: u64| after(name).and_then(|w| w.parse().ok()).unwrap_or(default);
    let cases = cases();
    if words.first().is_some_and(|word| word == "--list") {
        return list(&cases);
    }
    if let Some(side) = after("--single") {
        let case = cases.iter().find(|case| Some(&case.name) == words.get(2)).expect("a known workload");
        return single(case, side, number("--items", 1000));
    }
    let only = after("--only").cloned().unwrap_or_default();
    println!(
        "{:20} {:>10} {:>10} {:>7} {:>10} {:>7} {:>10} {:>7} {:>10} {:>9}",
        "workload", "orig ns", "port ns", "ratio", "its own ns", "ratio", "by over ns", "ratio", "limit ns", "by limit"
    );
    let (mut measured, mut wrong) = (Vec::new(), 0);
    for case in cases.iter().filter(|case| case.name.contains(&only)) {
        let data = case.work.data(case.order);
        let (sides, differing) = case.agreeing(&data);
        if differing > 0 {
            println!("{:20} {differing} sides return or write something else", case.name);
            wrong += differing;
        }
        let times = Times::of(&case.rounds(&sides, &data, number("--rounds", 21), number("--millis", 2)));
        times.print(&case.name);
        measured.push((case.work.name, times));
    }
    print_means(&measured);
    if wrong > 0 {
        std::process::exit(1);
    }
}
