//! Nanoseconds a field over the repository's corpus, of the stateless pair: this crate, h3's own module and nghttp3's
//! ends of capacity 0 in turn in one run, the least of so many rounds. `bench_h3.sh` builds it, in a folder of its own.

use bytes::{Bytes, BytesMut};
use std::ffi::c_void;
use std::time::{Duration, Instant};

/// The time of a call, and what it answered.
fn timed<T>(call: impl FnOnce() -> T) -> (Duration, T) {
    let begun = Instant::now();
    let answer = call();
    (begun.elapsed(), answer)
}

/// The calls of a module: `encode` to a vector and to `BytesMut`, and `decode` of `Bytes`.
macro_rules! calls {
    ($name:ident, $($module:ident)::+) => {
        mod $name {
            use super::*;
            use $($module)::+ as qpack;
            use qpack::{Decoded, DecoderError, HeaderField};

            pub type List = Vec<HeaderField>;

            /// A list of names and values.
            pub fn list_of(pairs: &[(&str, &str)]) -> List {
                pairs.iter().map(|pair| HeaderField::from(*pair)).collect()
            }

            /// How long it takes to encode every list to a vector, to `BytesMut`, and to decode it.
            pub fn run(lists: &[List]) -> [Duration; 3] {
                let mut times = [Duration::ZERO; 3];
                for list in lists {
                    let mut section = Vec::with_capacity(4096);
                    let (time, size) = timed(|| qpack::encode_stateless(&mut section, list).unwrap());
                    times[0] += time;
                    let mut block = BytesMut::new();
                    let (time, same) = timed(|| qpack::encode_stateless(&mut block, list).unwrap());
                    times[1] += time;
                    assert_eq!((size, &section[..]), (same, &block[..]));
                    let mut encoded: Bytes = block.freeze();
                    let (time, decoded) = timed(|| qpack::decode_stateless(&mut encoded, 1 << 20));
                    times[2] += time;
                    let Decoded { fields, mem_size, .. } = match decoded {
                        Err(DecoderError::HeaderTooLong(size)) => panic!("{size} is too long"),
                        answer => answer.unwrap(),
                    };
                    assert_eq!((mem_size, &fields), (size, list));
                }
                times
            }
        }
    };
}

calls!(ours, h3_qpack);
calls!(theirs, h3_theirs::qpack);

/// nghttp3's ends of capacity 0, which `bench_nghttp3.c` drives.
struct Nghttp3 {
    ends: *mut c_void,
    section: Vec<u8>,
}

/// A field that is lent to nghttp3: `nghttp3_nv`.
#[repr(C)]
struct Nv {
    name: *const u8,
    value: *const u8,
    name_len: usize,
    value_len: usize,
    flags: u8,
}

type Owned = Vec<(Vec<u8>, Vec<u8>)>;

extern "C" {
    fn bench_new() -> *mut c_void;
    fn bench_encode(ends: *mut c_void, fields: *const Nv, many: usize, section: *mut u8) -> usize;
    fn bench_decode(
        ends: *mut c_void,
        section: *const u8,
        len: usize,
        list: *mut c_void,
        take: extern "C" fn(*mut c_void, *const u8, usize, *const u8, usize),
    ) -> usize;
}

/// Takes a field that nghttp3 decoded, owned.
extern "C" fn take(list: *mut c_void, name: *const u8, name_len: usize, value: *const u8, value_len: usize) {
    // SAFETY: nghttp3 lends the field for the length of the call, and `decode` the list.
    let (list, name, value) = unsafe {
        (
            &mut *list.cast::<Owned>(),
            std::slice::from_raw_parts(name, name_len),
            std::slice::from_raw_parts(value, value_len),
        )
    };
    list.push((name.to_vec(), value.to_vec()));
}

impl Nghttp3 {
    fn new() -> Nghttp3 {
        // SAFETY: the call takes nothing; the ends live as long as the program.
        Nghttp3 { ends: unsafe { bench_new() }, section: vec![0; 1 << 16] }
    }

    /// How long it takes to encode every list, and to decode it.
    fn run(&mut self, lists: &[Vec<(&str, &str)>]) -> [Duration; 2] {
        let mut times = [Duration::ZERO; 2];
        for list in lists {
            let (time, len) = timed(|| self.encode(list));
            times[0] += time;
            let (time, decoded) = timed(|| self.decode(len, list.len()));
            times[1] += time;
            let same = |(own, pair): (&(Vec<u8>, Vec<u8>), &(&str, &str))| {
                (&own.0[..], &own.1[..]) == (pair.0.as_bytes(), pair.1.as_bytes())
            };
            assert!(decoded.len() == list.len() && decoded.iter().zip(list).all(same));
        }
        times
    }

    fn encode(&mut self, list: &[(&str, &str)]) -> usize {
        let lend = |(name, value): &(&str, &str)| Nv {
            name: name.as_ptr(),
            value: value.as_ptr(),
            name_len: name.len(),
            value_len: value.len(),
            flags: 0,
        };
        let fields: Vec<Nv> = list.iter().map(lend).collect();
        // SAFETY: all is lent for the length of the call; no section of the corpus has more than 64 KiB.
        unsafe { bench_encode(self.ends, fields.as_ptr(), fields.len(), self.section.as_mut_ptr()) }
    }

    fn decode(&mut self, len: usize, many: usize) -> Owned {
        let mut list: Owned = Vec::with_capacity(many);
        let lent: *mut Owned = &mut list;
        // SAFETY: all is lent for the length of the call.
        unsafe { bench_decode(self.ends, self.section.as_ptr(), len, lent.cast(), take) };
        list
    }
}

fn keep_least<const N: usize>(least: &mut [Duration; N], times: [Duration; N]) {
    for (least, time) in least.iter_mut().zip(times) {
        *least = time.min(*least);
    }
}

fn main() {
    let words: Vec<String> = std::env::args().collect();
    let text = std::fs::read_to_string(&words[1]).expect("the corpus");
    let rounds: usize = words[2].parse().expect("how many rounds");
    let pairs: Vec<Vec<(&str, &str)>> = text
        .trim_end()
        .split("\n\n")
        .map(|list| list.lines().filter_map(|line| line.split_once('\t')).collect())
        .collect();
    let fields: usize = pairs.iter().map(Vec::len).sum();
    let own: Vec<ours::List> = pairs.iter().map(|list| ours::list_of(list)).collect();
    let other: Vec<theirs::List> = pairs.iter().map(|list| theirs::list_of(list)).collect();
    let mut nghttp3 = Nghttp3::new();
    let (mut least, mut others_least) = ([Duration::MAX; 3], [Duration::MAX; 3]);
    let mut nghttp3_least = [Duration::MAX; 2];
    for _ in 0..rounds {
        keep_least(&mut least, ours::run(&own));
        keep_least(&mut others_least, theirs::run(&other));
        keep_least(&mut nghttp3_least, nghttp3.run(&pairs));
    }
    println!("{} lists, {fields} fields, the least of {rounds} rounds, nanoseconds a field", pairs.len());
    let each = |time: Duration| time.as_nanos() as f64 / fields as f64;
    for (at, what) in ["encode to a vector", "encode to BytesMut", "decode of Bytes"].iter().enumerate() {
        let (ours, theirs) = (each(least[at]), each(others_least[at]));
        println!("{what}: {ours:.0}, h3 {theirs:.0} ({:.2})", ours / theirs);
    }
    for (at, of_ours, what) in [(0, 0, "encode to a vector"), (1, 2, "decode to owned fields")] {
        let (ours, theirs) = (each(least[of_ours]), each(nghttp3_least[at]));
        println!("{what}: {ours:.0}, nghttp3 {theirs:.0} ({:.2})", ours / theirs);
    }
}
