//! Measures single calls of the port and of the Rust crate, in one process and in turns.
//!
//!     calls [--rounds N] [--millis N] [--only TEXT]          times and ratios
//!     calls --list                                           the workloads with their functions and sides
//!     calls --single orig|port|slice WORKLOAD [--items N]    one call of one side, for callgrind
//!
//! The port is the library that is linked; README.md lists its functions. `slice` is the port over its own
//! streams of memory, `Slice` and `SliceMut`.
extern crate original_calls;
#[cfg(feature = "twin")]
extern crate twin;

/// The processor time of this thread in seconds. It does not include the time of other processes.
fn now() -> f64 {
    #[repr(C)]
    struct Time {
        seconds: i64,
        nanoseconds: i64,
    }
    unsafe extern "C" {
        safe fn clock_gettime(clock: i32, time: &mut Time) -> i32;
    }
    const THREAD: i32 = 3;
    let mut time = Time { seconds: 0, nanoseconds: 0 };
    assert_eq!(clock_gettime(THREAD, &mut time), 0, "a clock");
    time.seconds as f64 + time.nanoseconds as f64 * 1e-9
}

macro_rules! sides {
    ($($name:ident $orig:literal $port:literal ($($arg:ident: $t:ty),*);)*) => {
        mod orig {
            unsafe extern "C" { $(#[link_name = $orig] pub safe fn $name($($arg: $t),*) -> u64;)* }
        }
        mod port {
            unsafe extern "C" { $(#[link_name = $port] pub safe fn $name($($arg: $t),*) -> u64;)* }
        }
        #[derive(Clone, Copy)]
        struct Side { $($name: extern "C" fn($($t),*) -> u64,)* }
        const ORIG: Side = Side { $($name: orig::$name,)* };
        const PORT: Side = Side { $($name: port::$name,)* };
    };
}

sides! {
    read_bits "orig_read_bits" "bench_read_bits" (order: u32, data: *const u8, len: usize, count: u64);
    read_unsigned "orig_read_unsigned" "bench_read_unsigned" (order: u32, width: u32, data: *const u8, len: usize, count: u64);
    read_signed "orig_read_signed" "bench_read_signed" (order: u32, width: u32, data: *const u8, len: usize, count: u64);
    read_bytes "orig_read_bytes" "bench_read_bytes" (order: u32, skip: u32, data: *const u8, len: usize, out: *mut u8, out_len: usize, count: u64);
    read_unary "orig_read_unary" "bench_read_unary" (order: u32, stop: u32, data: *const u8, len: usize, count: u64);
    read_vbr "orig_read_vbr" "bench_read_vbr" (order: u32, field: u32, data: *const u8, len: usize, count: u64);
    read_flac_header "orig_read_flac_header" "bench_read_flac_header" (data: *const u8, len: usize, count: u64);
    skip "orig_skip" "bench_skip" (order: u32, step: u32, data: *const u8, len: usize, count: u64);
    write_bits "orig_write_bits" "bench_write_bits" (order: u32, count: u64, seed: u64, out: *mut u8, out_len: usize);
    write_unsigned "orig_write_unsigned" "bench_write_unsigned" (order: u32, width: u32, count: u64, seed: u64, out: *mut u8, out_len: usize);
    write_signed "orig_write_signed" "bench_write_signed" (order: u32, width: u32, count: u64, seed: u64, out: *mut u8, out_len: usize);
    write_bytes "orig_write_bytes" "bench_write_bytes" (order: u32, skip: u32, data: *const u8, len: usize, count: u64, out: *mut u8, out_len: usize);
    write_unary "orig_write_unary" "bench_write_unary" (order: u32, stop: u32, limit: u32, count: u64, seed: u64, out: *mut u8, out_len: usize);
    write_vbr "orig_write_vbr" "bench_write_vbr" (order: u32, field: u32, bits: u32, count: u64, seed: u64, out: *mut u8, out_len: usize);
    write_flac_header "orig_write_flac_header" "bench_write_flac_header" (count: u64, seed: u64, out: *mut u8, out_len: usize);
    read_prefix "orig_read_prefix" "bench_read_prefix" (order: u32, data: *const u8, len: usize, count: u64);
    read_code "orig_read_code" "bench_read_code" (order: u32, code: u32, data: *const u8, len: usize, count: u64);
    write_code "orig_write_code" "bench_write_code" (order: u32, code: u32, data: *const u8, len: usize, count: u64, out: *mut u8, out_len: usize);
    write_indexed "orig_write_indexed" "bench_write_indexed" (order: u32, code: u32, data: *const u8, len: usize, count: u64, out: *mut u8, out_len: usize);
    write_prefix "orig_write_prefix" "bench_write_prefix" (order: u32, count: u64, seed: u64, out: *mut u8, out_len: usize);
    read_buffered "orig_read_buffered" "bench_read_buffered" (order: u32, data: *const u8, len: usize, count: u64);
    write_buffered "orig_write_buffered" "bench_write_buffered" (order: u32, count: u64, seed: u64, out: *mut u8, out_len: usize);
    read_fields "orig_read_fields" "bench_read_fields" (order: u32, data: *const u8, len: usize, count: u64);
    read_array "orig_read_array" "bench_read_array" (order: u32, data: *const u8, len: usize, count: u64);
    read_value "orig_read_value" "bench_read_value" (order: u32, data: *const u8, len: usize, count: u64);
    read_vec "orig_read_vec" "bench_read_vec" (order: u32, skip: u32, bytes: usize, data: *const u8, len: usize, count: u64);
    write_fields "orig_write_fields" "bench_write_fields" (order: u32, count: u64, seed: u64, out: *mut u8, out_len: usize);
    write_array "orig_write_array" "bench_write_array" (order: u32, count: u64, seed: u64, out: *mut u8, out_len: usize);
    write_value "orig_write_value" "bench_write_value" (order: u32, count: u64, seed: u64, out: *mut u8, out_len: usize);
    count "orig_count" "bench_count" (count: u64, seed: u64);
    record "orig_record" "bench_record" (order: u32, count: u64, seed: u64, out: *mut u8, out_len: usize);
}

/// The port over its own streams of memory, `Slice` and `SliceMut`. The Rust crate has no such streams: its side
/// works over `&[u8]` and `&mut [u8]` in both cases.
mod slice {
    unsafe extern "C" {
        #[link_name = "bench_read_bits_slice"]
        pub safe fn read_bits(order: u32, data: *const u8, len: usize, count: u64) -> u64;
        #[link_name = "bench_read_unsigned_slice"]
        pub safe fn read_unsigned(order: u32, width: u32, data: *const u8, len: usize, count: u64) -> u64;
        #[link_name = "bench_read_signed_slice"]
        pub safe fn read_signed(order: u32, width: u32, data: *const u8, len: usize, count: u64) -> u64;
        #[link_name = "bench_read_bytes_slice"]
        pub safe fn read_bytes(
            order: u32,
            skip: u32,
            data: *const u8,
            len: usize,
            out: *mut u8,
            out_len: usize,
            count: u64,
        ) -> u64;
        #[link_name = "bench_read_unary_slice"]
        pub safe fn read_unary(order: u32, stop: u32, data: *const u8, len: usize, count: u64) -> u64;
        #[link_name = "bench_read_vbr_slice"]
        pub safe fn read_vbr(order: u32, field: u32, data: *const u8, len: usize, count: u64) -> u64;
        #[link_name = "bench_read_flac_header_slice"]
        pub safe fn read_flac_header(data: *const u8, len: usize, count: u64) -> u64;
        #[link_name = "bench_read_prefix_slice"]
        pub safe fn read_prefix(order: u32, data: *const u8, len: usize, count: u64) -> u64;
        #[link_name = "bench_skip_slice"]
        pub safe fn skip(order: u32, step: u32, data: *const u8, len: usize, count: u64) -> u64;
        #[link_name = "bench_write_bits_slice"]
        pub safe fn write_bits(order: u32, count: u64, seed: u64, out: *mut u8, out_len: usize) -> u64;
        #[link_name = "bench_write_unsigned_slice"]
        pub safe fn write_unsigned(order: u32, width: u32, count: u64, seed: u64, out: *mut u8, out_len: usize) -> u64;
        #[link_name = "bench_write_signed_slice"]
        pub safe fn write_signed(order: u32, width: u32, count: u64, seed: u64, out: *mut u8, out_len: usize) -> u64;
        #[link_name = "bench_write_bytes_slice"]
        pub safe fn write_bytes(
            order: u32,
            skip: u32,
            data: *const u8,
            len: usize,
            count: u64,
            out: *mut u8,
            out_len: usize,
        ) -> u64;
        #[link_name = "bench_write_unary_slice"]
        pub safe fn write_unary(
            order: u32,
            stop: u32,
            limit: u32,
            count: u64,
            seed: u64,
            out: *mut u8,
            out_len: usize,
        ) -> u64;
        #[link_name = "bench_write_vbr_slice"]
        pub safe fn write_vbr(
            order: u32,
            field: u32,
            bits: u32,
            count: u64,
            seed: u64,
            out: *mut u8,
            out_len: usize,
        ) -> u64;
        #[link_name = "bench_write_flac_header_slice"]
        pub safe fn write_flac_header(count: u64, seed: u64, out: *mut u8, out_len: usize) -> u64;
        #[link_name = "bench_write_code_slice"]
        pub safe fn write_code(
            order: u32,
            code: u32,
            data: *const u8,
            len: usize,
            count: u64,
            out: *mut u8,
            out_len: usize,
        ) -> u64;
        #[link_name = "bench_write_indexed_slice"]
        pub safe fn write_indexed(
            order: u32,
            code: u32,
            data: *const u8,
            len: usize,
            count: u64,
            out: *mut u8,
            out_len: usize,
        ) -> u64;
        #[link_name = "bench_write_prefix_slice"]
        pub safe fn write_prefix(order: u32, count: u64, seed: u64, out: *mut u8, out_len: usize) -> u64;
        #[link_name = "bench_read_buffered_slice"]
        pub safe fn read_buffered(order: u32, data: *const u8, len: usize, count: u64) -> u64;
        #[link_name = "bench_write_buffered_slice"]
        pub safe fn write_buffered(order: u32, count: u64, seed: u64, out: *mut u8, out_len: usize) -> u64;
        #[link_name = "bench_read_fields_slice"]
        pub safe fn read_fields(order: u32, data: *const u8, len: usize, count: u64) -> u64;
        #[link_name = "bench_read_array_slice"]
        pub safe fn read_array(order: u32, data: *const u8, len: usize, count: u64) -> u64;
        #[link_name = "bench_read_value_slice"]
        pub safe fn read_value(order: u32, data: *const u8, len: usize, count: u64) -> u64;
        #[link_name = "bench_read_vec_slice"]
        pub safe fn read_vec(order: u32, skip: u32, bytes: usize, data: *const u8, len: usize, count: u64) -> u64;
        #[link_name = "bench_write_fields_slice"]
        pub safe fn write_fields(order: u32, count: u64, seed: u64, out: *mut u8, out_len: usize) -> u64;
        #[link_name = "bench_write_array_slice"]
        pub safe fn write_array(order: u32, count: u64, seed: u64, out: *mut u8, out_len: usize) -> u64;
        #[link_name = "bench_write_value_slice"]
        pub safe fn write_value(order: u32, count: u64, seed: u64, out: *mut u8, out_len: usize) -> u64;
        #[link_name = "bench_record_slice"]
        pub safe fn record(order: u32, count: u64, seed: u64, out: *mut u8, out_len: usize) -> u64;
    }
}

const SLICE: Side = Side {
    read_bits: slice::read_bits,
    read_unsigned: slice::read_unsigned,
    read_signed: slice::read_signed,
    read_bytes: slice::read_bytes,
    read_unary: slice::read_unary,
    read_vbr: slice::read_vbr,
    read_flac_header: slice::read_flac_header,
    read_prefix: slice::read_prefix,
    skip: slice::skip,
    write_bits: slice::write_bits,
    write_unsigned: slice::write_unsigned,
    write_signed: slice::write_signed,
    write_bytes: slice::write_bytes,
    write_unary: slice::write_unary,
    write_vbr: slice::write_vbr,
    write_flac_header: slice::write_flac_header,
    write_code: slice::write_code,
    write_indexed: slice::write_indexed,
    write_prefix: slice::write_prefix,
    read_buffered: slice::read_buffered,
    write_buffered: slice::write_buffered,
    read_fields: slice::read_fields,
    read_array: slice::read_array,
    read_value: slice::read_value,
    read_vec: slice::read_vec,
    write_fields: slice::write_fields,
    write_array: slice::write_array,
    write_value: slice::write_value,
    record: slice::record,
    ..PORT
};

type Data = Box<dyn Fn() -> Vec<u8>>;
type Run = Box<dyn Fn(&Side, &[u8], &mut [u8], u64) -> u64>;

struct Work {
    name: String,
    function: &'static str,
    data: Data,
    out_len: usize,
    items: u64,
    run: Run,
}

const SIZE: usize = 1 << 18;
const MOST: u64 = 200_000;
/// The number of symbols of a code to write: they fill a fifth of the output at most.
const SYMBOLS: usize = 40_000;
const SEED: u64 = 20_260_101;
const REFUSED: u64 = u64::MAX;

/// The number of items of so many bits that fit the input or the output.
fn capacity(bits: u64) -> u64 {
    ((SIZE as u64 * 8 - 64) / bits).min(MOST)
}

fn random_bytes(len: usize) -> Vec<u8> {
    let mut state = 12345u64;
    (0..len)
        .map(|_| {
            state = state.wrapping_mul(6364136223846793005).wrapping_add(1442695040888963407);
            (state >> 56) as u8
        })
        .collect()
}

fn random() -> Data {
    Box::new(|| random_bytes(SIZE))
}

/// Returns what the Rust crate writes: the input of a reading workload.
fn made(write: impl Fn(&mut [u8]) -> u64 + 'static) -> Data {
    Box::new(move || {
        let mut out = vec![0; 4 * SIZE];
        let n = write(&mut out);
        assert_ne!(n, REFUSED, "the input can't be made");
        out.truncate(n as usize);
        out
    })
}

/// Returns symbols of a code, a byte each: a code word of n bits is as frequent as n bits in random ones.
fn symbols(code: u32) -> Data {
    let symbol = move |bits: &[u8]| (ORIG.read_code)(0, code, bits.as_ptr(), bits.len(), 1) as u8;
    Box::new(move || random_bytes(4 * SYMBOLS).chunks(4).map(symbol).collect())
}

/// A workload that reads `data`.
fn read(
    name: String,
    function: &'static str,
    data: Data,
    items: u64,
    run: impl Fn(&Side, &[u8], u64) -> u64 + 'static,
) -> Work {
    Work { name, function, data, out_len: 0, items, run: Box::new(move |s, d, _, n| run(s, d, n)) }
}

/// A workload that writes.
fn write(
    name: String,
    function: &'static str,
    items: u64,
    run: impl Fn(&Side, &mut [u8], u64) -> u64 + 'static,
) -> Work {
    let data: Data = Box::new(Vec::new);
    Work { name, function, data, out_len: SIZE, items, run: Box::new(move |s, _, b, n| run(s, b, n)) }
}

/// Single bits, unsigned and signed numbers.
fn numbers(order: u32, o: &str) -> Vec<Work> {
    let mut list = vec![
        read(format!("read-bits-{o}"), "read_bits", random(), MOST, move |s, d, n| {
            (s.read_bits)(order, d.as_ptr(), d.len(), n)
        }),
        write(format!("write-bits-{o}"), "write_bits", MOST, move |s, b, n| {
            (s.write_bits)(order, n, SEED, b.as_mut_ptr(), b.len())
        }),
    ];
    for width in [1u32, 4, 8, 13, 32, 33, 64, 100] {
        let items = capacity(width.into());
        list.push(read(format!("read-unsigned-{width}-{o}"), "read_unsigned", random(), items, move |s, d, n| {
            (s.read_unsigned)(order, width, d.as_ptr(), d.len(), n)
        }));
        list.push(write(format!("write-unsigned-{width}-{o}"), "write_unsigned", items, move |s, b, n| {
            (s.write_unsigned)(order, width, n, SEED, b.as_mut_ptr(), b.len())
        }));
    }
    for width in [5u32, 32] {
        let items = capacity(width.into());
        list.push(read(format!("read-signed-{width}-{o}"), "read_signed", random(), items, move |s, d, n| {
            (s.read_signed)(order, width, d.as_ptr(), d.len(), n)
        }));
        list.push(write(format!("write-signed-{width}-{o}"), "write_signed", items, move |s, b, n| {
            (s.write_signed)(order, width, n, SEED, b.as_mut_ptr(), b.len())
        }));
    }
    list
}

/// Buffers of bytes, at a byte boundary and off it.
fn buffers(order: u32, o: &str) -> Vec<Work> {
    let mut list = Vec::new();
    for (skip, place) in [(0u32, "aligned"), (3, "unaligned")] {
        for chunk in [16usize, 4096] {
            let items = ((SIZE - 16) / chunk) as u64;
            list.push(Work {
                name: format!("read-bytes-{chunk}-{place}-{o}"),
                function: "read_bytes",
                data: random(),
                out_len: chunk,
                items,
                run: Box::new(move |s, d, b, n| {
                    (s.read_bytes)(order, skip, d.as_ptr(), d.len(), b.as_mut_ptr(), b.len(), n)
                }),
            });
            list.push(Work {
                name: format!("write-bytes-{chunk}-{place}-{o}"),
                function: "write_bytes",
                data: Box::new(move || random_bytes(chunk)),
                out_len: SIZE,
                items,
                run: Box::new(move |s, d, b, n| {
                    (s.write_bytes)(order, skip, d.as_ptr(), d.len(), n, b.as_mut_ptr(), b.len())
                }),
            });
        }
    }
    list
}

/// Unary numbers, numbers of variable width, and symbols of a prefix code.
fn codes(order: u32, o: &str) -> Vec<Work> {
    const ITEMS: u64 = 30_000;
    let mut list = Vec::new();
    for (stop, limit) in [(0u32, 6u32), (0, 60), (1, 6), (1, 60)] {
        let data = made(move |b| (ORIG.write_unary)(order, stop, limit, ITEMS, SEED, b.as_mut_ptr(), b.len()));
        list.push(read(format!("read-unary{stop}-{limit}-{o}"), "read_unary", data, ITEMS, move |s, d, n| {
            (s.read_unary)(order, stop, d.as_ptr(), d.len(), n)
        }));
        list.push(write(format!("write-unary{stop}-{limit}-{o}"), "write_unary", ITEMS, move |s, b, n| {
            (s.write_unary)(order, stop, limit, n, SEED, b.as_mut_ptr(), b.len())
        }));
    }
    for (field, bits) in [(4u32, 7u32), (4, 40), (8, 7), (8, 40)] {
        let data = made(move |b| (ORIG.write_vbr)(order, field, bits, ITEMS, SEED, b.as_mut_ptr(), b.len()));
        list.push(read(format!("read-vbr{field}-{bits}-{o}"), "read_vbr", data, ITEMS, move |s, d, n| {
            (s.read_vbr)(order, field, d.as_ptr(), d.len(), n)
        }));
        list.push(write(format!("write-vbr{field}-{bits}-{o}"), "write_vbr", ITEMS, move |s, b, n| {
            (s.write_vbr)(order, field, bits, n, SEED, b.as_mut_ptr(), b.len())
        }));
    }
    let data = made(move |b| (ORIG.write_prefix)(order, ITEMS, SEED, b.as_mut_ptr(), b.len()));
    list.push(read(format!("read-prefix-{o}"), "read_prefix", data, ITEMS, move |s, d, n| {
        (s.read_prefix)(order, d.as_ptr(), d.len(), n)
    }));
    list.push(write(format!("write-prefix-{o}"), "write_prefix", ITEMS, move |s, b, n| {
        (s.write_prefix)(order, n, SEED, b.as_mut_ptr(), b.len())
    }));
    let codes = ["flat-8", "skewed-8", "flat-24", "skewed-24", "flat-288", "skewed-288"];
    for (code, name) in (0u32..).zip(codes) {
        list.push(read(format!("read-table-{name}-{o}"), "read_code", random(), capacity(17), move |s, d, n| {
            (s.read_code)(order, code, d.as_ptr(), d.len(), n)
        }));
    }
    for (code, name) in (0u32..).zip(&codes[..4]) {
        list.push(Work {
            name: format!("write-words-{name}-{o}"),
            function: "write_code",
            data: symbols(code),
            out_len: SIZE,
            items: SYMBOLS as u64,
            run: Box::new(move |s, d, b, n| {
                (s.write_code)(order, code, d.as_ptr(), d.len(), n, b.as_mut_ptr(), b.len())
            }),
        });
        list.push(Work {
            name: format!("write-indexed-{name}-{o}"),
            function: "write_indexed",
            data: symbols(code),
            out_len: SIZE,
            items: SYMBOLS as u64,
            run: Box::new(move |s, d, b, n| {
                (s.write_indexed)(order, code, d.as_ptr(), d.len(), n, b.as_mut_ptr(), b.len())
            }),
        });
    }
    list
}

/// Numbers over std's buffers, fields of constant widths, arrays, and whole-byte numbers.
fn values(order: u32, o: &str) -> Vec<Work> {
    vec![
        read(format!("read-buffered-{o}"), "read_buffered", random(), capacity(13), move |s, d, n| {
            (s.read_buffered)(order, d.as_ptr(), d.len(), n)
        }),
        write(format!("write-buffered-{o}"), "write_buffered", capacity(13), move |s, b, n| {
            (s.write_buffered)(order, n, SEED, b.as_mut_ptr(), b.len())
        }),
        read(format!("read-fields-{o}"), "read_fields", random(), capacity(64), move |s, d, n| {
            (s.read_fields)(order, d.as_ptr(), d.len(), n)
        }),
        write(format!("write-fields-{o}"), "write_fields", capacity(64), move |s, b, n| {
            (s.write_fields)(order, n, SEED, b.as_mut_ptr(), b.len())
        }),
        read(format!("read-array-{o}"), "read_array", random(), capacity(96), move |s, d, n| {
            (s.read_array)(order, d.as_ptr(), d.len(), n)
        }),
        write(format!("write-array-{o}"), "write_array", capacity(96), move |s, b, n| {
            (s.write_array)(order, n, SEED, b.as_mut_ptr(), b.len())
        }),
        read(format!("read-value-{o}"), "read_value", random(), capacity(48), move |s, d, n| {
            (s.read_value)(order, d.as_ptr(), d.len(), n)
        }),
        write(format!("write-value-{o}"), "write_value", capacity(48), move |s, b, n| {
            (s.write_value)(order, n, SEED, b.as_mut_ptr(), b.len())
        }),
    ]
}

/// Vectors of bytes, recordings and skips.
fn others(order: u32, o: &str) -> Vec<Work> {
    let mut list = Vec::new();
    for (skip, place) in [(0u32, "aligned"), (3, "unaligned")] {
        for bytes in [64usize, 10_000] {
            let items = ((SIZE - 16) / bytes) as u64;
            list.push(read(format!("read-vec-{bytes}-{place}-{o}"), "read_vec", random(), items, move |s, d, n| {
                (s.read_vec)(order, skip, bytes, d.as_ptr(), d.len(), n)
            }));
        }
    }
    list.push(write(format!("record-13-{o}"), "record", capacity(13), move |s, b, n| {
        (s.record)(order, n, SEED, b.as_mut_ptr(), b.len())
    }));
    for step in [5u32, 1000] {
        let items = capacity(u64::from(step) + 1);
        list.push(read(format!("skip-{step}-{o}"), "skip", random(), items, move |s, d, n| {
            (s.skip)(order, step, d.as_ptr(), d.len(), n)
        }));
    }
    list
}

/// FLAC headers, which have one order, and the counter, which has none.
fn without_order() -> Vec<Work> {
    let items = SIZE as u64 / 34 - 1;
    let headers = made(move |b| (ORIG.write_flac_header)(items, SEED, b.as_mut_ptr(), b.len()));
    vec![
        read("read-flac-header".into(), "read_flac_header", headers, items, |s, d, n| {
            (s.read_flac_header)(d.as_ptr(), d.len(), n)
        }),
        write("write-flac-header".into(), "write_flac_header", items, |s, b, n| {
            (s.write_flac_header)(n, SEED, b.as_mut_ptr(), b.len())
        }),
        read("count".into(), "count", Box::new(Vec::new), 30_000, |s, _, n| (s.count)(n, SEED)),
    ]
}

fn workloads() -> Vec<Work> {
    let mut list = Vec::new();
    for (order, o) in [(0u32, "be"), (1, "le")] {
        for kind in [numbers, buffers, codes, values, others] {
            list.extend(kind(order, o));
        }
    }
    list.extend(without_order());
    list
}

/// The times of a workload: nanoseconds an item and their ratio in each round.
struct Times {
    originals: Vec<f64>,
    ports: Vec<f64>,
    ratios: Vec<f64>,
}

impl Work {
    /// Returns true if the workload has a stream, so that the port can also use its own.
    fn has_stream(&self) -> bool {
        !matches!(self.function, "count" | "read_code")
    }

    /// Makes one call of one side, and prints what it returns.
    fn single(&self, side: &Side, items: u64) {
        let items = items.min(self.items);
        let mut out = vec![0u8; self.out_len];
        let answer = (self.run)(side, &(self.data)(), &mut out, items);
        // The result includes the written bytes.
        let mix = |sum: u64, byte: &u8| sum.wrapping_mul(31).wrapping_add(u64::from(*byte));
        let told = if answer == REFUSED { REFUSED } else { out.iter().fold(answer, mix) >> 1 };
        println!("{} items {items} answer {told}", self.name);
    }

    /// Returns true if both sides return and write the same. Otherwise there is nothing to measure.
    fn agrees(&self, side: &Side, data: &[u8]) -> bool {
        let mut buffers = [vec![0u8; self.out_len], vec![0u8; self.out_len]];
        let [first, second] = &mut buffers;
        let answers = ((self.run)(&ORIG, data, first, self.items), (self.run)(side, data, second, self.items));
        answers.0 == answers.1 && answers.0 != REFUSED && buffers[0] == buffers[1]
    }

    fn times(&self, port: &Side, data: &[u8], rounds: u64, millis: u64) -> Times {
        let mut out = vec![0u8; self.out_len];
        let mut time = |side: &Side, times: u64| {
            let start = now();
            for _ in 0..times {
                std::hint::black_box((self.run)(side, std::hint::black_box(data), &mut out, self.items));
            }
            now() - start
        };
        // The number of calls in a turn that fills the wanted time.
        let once = time(&ORIG, 2) / 2.0;
        let times = ((millis as f64 / 1000.0 / once) as u64).max(1);
        let items = (times * self.items) as f64;
        let mut found = Times { originals: Vec::new(), ports: Vec::new(), ratios: Vec::new() };
        for round in 0..rounds {
            // The side that begins changes from round to round.
            let (original, ours) = if round % 2 == 0 {
                let original = time(&ORIG, times);
                (original, time(port, times))
            } else {
                let ours = time(port, times);
                (time(&ORIG, times), ours)
            };
            found.originals.push(original / items * 1e9);
            found.ports.push(ours / items * 1e9);
            found.ratios.push(ours / original);
        }
        found
    }
}

/// Sorts the values, and returns the middle one.
fn median(values: &mut [f64]) -> f64 {
    values.sort_by(f64::total_cmp);
    values[values.len() / 2]
}

impl Times {
    /// Prints a line, and returns the ratio of the medians and that of the shortest times.
    fn print(&mut self, name: &str) -> [f64; 2] {
        let ratio = median(&mut self.ratios);
        let (original, ours) = (median(&mut self.originals), median(&mut self.ports));
        let best = self.ports[0] / self.originals[0];
        let [low, high] = [1, 3].map(|quarter| self.ratios[self.ratios.len() * quarter / 4]);
        println!("{name:40} {original:12.2} {ours:12.2} {ratio:8.3}  {low:.3} to {high:.3} {best:9.3}");
        [ratio, best]
    }
}

/// Prints the geometric means of the ratios.
fn print_means(ratios: &[[f64; 2]]) {
    for (place, name) in ["medians", "shortest times"].iter().enumerate() {
        let logs = || ratios.iter().map(|it| it[place].ln());
        let mean = (logs().sum::<f64>() / ratios.len() as f64).exp();
        let worst = logs().fold(f64::MIN, f64::max).exp();
        println!("workloads {}, ratios of the {name}: geometric mean {mean:.3}, worst {worst:.3}", ratios.len());
    }
}

fn main() {
    let words: Vec<String> = std::env::args().skip(1).collect();
    let after = |name: &str| words.iter().position(|w| w == name).and_then(|p| words.get(p + 1));
    let number = |name: &str, default: u64| after(name).and_then(|w| w.parse().ok()).unwrap_or(default);
    let list = workloads();
    if words.first().is_some_and(|word| word == "--list") {
        let sides = |work: &Work| if work.has_stream() { "orig port slice" } else { "orig port" };
        return list.iter().for_each(|it| println!("{}\t{}\t{}\t{}", it.name, it.function, it.items, sides(it)));
    }
    if let Some(side) = after("--single") {
        let work = list.iter().find(|work| Some(&work.name) == words.get(2)).expect("a known workload");
        let named = [("orig", ORIG), ("slice", SLICE)].into_iter().find(|named| named.0 == side);
        return work.single(&named.map_or(PORT, |named| named.1), number("--items", 1000));
    }
    let only = after("--only").cloned().unwrap_or_default();
    println!(
        "{:40} {:>12} {:>12} {:>8}  {:>15} {:>9}",
        "workload", "orig ns/item", "port ns/item", "ratio", "middle half", "of bests"
    );
    let (mut ratios, mut wrong) = (Vec::new(), 0);
    for work in list.iter().filter(|work| work.name.contains(&only)) {
        let data = (work.data)();
        let sides = [(PORT, ""), (SLICE, " over its own")].into_iter().take(1 + usize::from(work.has_stream()));
        for (port, over) in sides {
            let name = format!("{}{over}", work.name);
            if (work.run)(&port, &data, &mut vec![0u8; work.out_len], 1) == REFUSED {
                println!("{name:40} not there");
            } else if !work.agrees(&port, &data) {
                println!("{name:40} the port returns or writes something else");
                wrong += 1;
            } else {
                ratios.push(work.times(&port, &data, number("--rounds", 21), number("--millis", 2)).print(&name));
            }
        }
    }
    if !ratios.is_empty() {
        print_means(&ratios);
    }
    if wrong > 0 {
        std::process::exit(1);
    }
}
