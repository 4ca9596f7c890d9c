//! Times the Rust original, utiles-core as published, on the workloads, and prints the same result lines as the C++ runners.
//! usage: rust DATADIR
use std::collections::HashSet;
use std::hint::black_box;
use std::path::Path;

use utiles_core as u;
use utiles_core::merge::{merge, simplify, simplify_v1};
use utiles_core::Tile;

const NO_ANSWERS: u64 = 0xCBF2_9CE4_8422_2325;

/// The hash of the answers so far and this one, as in the C++ runners.
fn answer_hash(mut h: u64, v: &[u64]) -> u64 {
    h ^= v.len() as u64;
    for &x in v {
        h = (h.rotate_left(5) ^ x).wrapping_mul(0x9E37_79B9_7F4A_7C15);
    }
    h
}

struct Job {
    kind: String,
    name: String,
    size: String,
    k: usize,
    entries: Vec<u64>,
}

fn load(path: &Path) -> Vec<u64> {
    let bytes = std::fs::read(path).expect("list file");
    bytes.chunks_exact(8).map(|c| u64::from_le_bytes(c.try_into().unwrap())).collect()
}

fn load_jobs(dir: &Path) -> Vec<Job> {
    let text = std::fs::read_to_string(dir.join("manifest")).expect("manifest");
    let job = |line: &str| {
        let f: Vec<&str> = line.split(' ').collect();
        Job { kind: f[0].into(), name: f[1].into(), size: f[2].into(), k: f[3].parse().unwrap(), entries: load(&dir.join(f[4])) }
    };
    text.lines().map(job).collect()
}

#[repr(C)]
struct Timespec {
    sec: i64,
    nsec: i64,
}
unsafe extern "C" {
    fn clock_gettime(clock: i32, t: *mut Timespec) -> i32;
}
const CLOCK_THREAD_CPUTIME_ID: i32 = 3;

/// Processor time of this thread, as in the C++ runners.
fn now_ns() -> f64 {
    let mut t = Timespec { sec: 0, nsec: 0 };
    unsafe { clock_gettime(CLOCK_THREAD_CPUTIME_ID, &mut t) };
    t.sec as f64 * 1e9 + t.nsec as f64
}

/// Best and median of at least 7 samples, in ns, then until BENCH_MS (default 60 ms) is spent.
fn measure(mut op: impl FnMut()) -> (f64, f64, usize) {
    let ms: f64 = std::env::var("BENCH_MS").ok().and_then(|s| s.parse().ok()).unwrap_or(60.0);
    let (mut t, mut spent) = (Vec::new(), 0.0);
    let mut i = -2;
    while i < 5000 && (i < 7 || spent < ms * 1e6) {
        let start = now_ns();
        op();
        let ns = now_ns() - start;
        if i >= 0 {
            t.push(ns);
            spent += ns;
        }
        i += 1;
    }
    t.sort_by(f64::total_cmp);
    (t[0], t[t.len() / 2], t.len())
}

/// How many entries went in and came out, and the hash of the answers.
struct Answered(usize, usize, u64);

fn emit(peer: &str, j: &Job, op: &str, form: &str, a: &Answered, t: (f64, f64, usize), k: usize) {
    let (best, median) = (t.0 / k as f64, t.1 / k as f64);
    let Answered(n_in, n_out, hash) = a;
    println!("{peer}\t{}\t{}\t{op}\t{form}\t{n_in}\t{n_out}\t{hash:016x}\t{best:.1}\t{median:.1}\t{}", j.name, j.size, t.2);
}

/// What the Rust's `rmid2xyz` gives, found as the C++ runners do: its loop over the zooms is not what lists are timed for.
fn tile_of(entry: u64) -> Tile {
    // 3 * entry + 1 lies in [4^z, 4^(z+1))
    let z = (63 - (3 * entry + 1).leading_zeros()) / 2;
    let o = entry - tiles_above(z);
    Tile { x: (o & ((1 << z) - 1)) as u32, y: (o >> z) as u32, z: z as u8 }
}

fn entry_of(t: &Tile) -> u64 {
    tiles_above(u32::from(t.z)) + u64::from(t.x) + (u64::from(t.y) << t.z)
}

/// How many tiles the zooms above z have.
fn tiles_above(z: u32) -> u64 {
    0x1555_5555_5555_5555 >> (62 - 2 * z)
}

fn to_set(entries: &[u64]) -> HashSet<Tile> {
    entries.iter().map(|&e| tile_of(e)).collect()
}

fn to_list(set: &HashSet<Tile>) -> Vec<u64> {
    let mut v: Vec<Tile> = set.iter().copied().collect();
    v.sort_unstable();
    v.iter().map(entry_of).collect()
}

/// form core: HashSet in, HashSet out. form list: list of entries in, list of entries in list order out.
fn run_set(peer: &str, j: &Job, op: &str, f: impl Fn(&HashSet<Tile>) -> HashSet<Tile>) {
    let n = j.entries.len() / j.k;
    let sets: Vec<HashSet<Tile>> = j.entries.chunks(n).map(to_set).collect();
    let (mut h, mut total) = (NO_ANSWERS, 0);
    for s in &sets {
        let out = to_list(&f(s));
        h = answer_hash(h, &out);
        total += out.len();
    }
    let a = Answered(n, total / j.k, h);
    let t = measure(|| sets.iter().for_each(|s| _ = black_box(f(black_box(s)))));
    emit(peer, j, op, "core", &a, t, j.k);
    let t = measure(|| j.entries.chunks(n).for_each(|v| _ = black_box(to_list(&f(&to_set(black_box(v)))))));
    emit(peer, j, op, "list", &a, t, j.k);
}

fn fold(h: u64, v: u64) -> u64 {
    h.wrapping_add((v ^ (v >> 29)).wrapping_mul(0x9E37_79B9_7F4A_7C15))
}

fn fold_tile(h: u64, x: u32, y: u32, z: u8) -> u64 {
    fold(h, (u64::from(x) << 34) ^ (u64::from(y) << 5) ^ u64::from(z))
}

fn one(peer: &str, j: &Job, op: &str, calls: usize, f: impl Fn() -> u64) {
    let mut h = 0;
    let t = measure(|| h = black_box(f()));
    emit(peer, j, op, "call", &Answered(calls, calls, h), t, 1);
}

type Xyz = (u32, u32, u8);

/// The calls that take a few nanoseconds. Handed the functions themselves the compiler joins them to the loop; handed pointers that it
/// cannot see through it calls them, as a program calls what stands in another library.
fn short_calls(
    peer: &str,
    j: &Job,
    to_id: impl Fn(u32, u32, u8) -> u64,
    from_id: impl Fn(u64) -> Tile,
    xyz2rmid: impl Fn(u32, u32, u8) -> u64,
    rmid2xyz: impl Fn(u64) -> Xyz,
    parent: impl Fn(u32, u32, u8, Option<u8>) -> Option<Tile>,
) {
    let tiles: Vec<Tile> = j.entries.iter().map(|&e| tile_of(e)).collect();
    let ids: Vec<u64> = tiles.iter().map(|t| u::to_id(t.x, t.y, t.z)).collect();
    let one = |op: &str, f: &dyn Fn() -> u64| one(peer, j, op, tiles.len(), f);
    one("to_id", &|| tiles.iter().fold(0, |h, t| fold(h, to_id(t.x, t.y, t.z))));
    one("from_id", &|| {
        ids.iter().fold(0, |h, &id| {
            let t = from_id(id);
            fold_tile(h, t.x, t.y, t.z)
        })
    });
    one("xyz2rmid", &|| tiles.iter().fold(0, |h, t| fold(h, xyz2rmid(t.x, t.y, t.z))));
    one("rmid2xyz", &|| {
        j.entries.iter().fold(0, |h, &r| {
            let (x, y, z) = rmid2xyz(r);
            fold_tile(h, x, y, z)
        })
    });
    let ancestor = |h, t: &Tile, n| {
        let p = parent(t.x, t.y, t.z, Some(n)).unwrap_or(Tile { x: 0, y: 0, z: 99 });
        fold_tile(h, p.x, p.y, p.z)
    };
    one("parent", &|| tiles.iter().fold(0, |h, t| ancestor(h, t, t.z / 2)));
    let deep = parent_input(&j.entries);
    for beyond in [0, 6, 28] {
        one(&format!("parent+{beyond}"), &|| deep.iter().fold(0, |h, t| ancestor(h, t, beyond)));
    }
}

/// A tile of zoom 29 inside each tile, as in the C++ runners.
fn parent_input(entries: &[u64]) -> Vec<Tile> {
    let inside = |&entry: &u64| {
        let t = tile_of(entry);
        let down = 29 - t.z;
        let low = (1 << down) - 1;
        let mixed = entry.wrapping_mul(0x9E37_79B9_7F4A_7C15);
        Tile { x: t.x << down | (mixed as u32 & low), y: t.y << down | ((mixed >> 32) as u32 & low), z: 29 }
    };
    entries.iter().map(inside).collect()
}

fn long_calls(j: &Job) {
    let tiles: Vec<Tile> = j.entries.iter().map(|&e| tile_of(e)).collect();
    let keys: Vec<String> = tiles.iter().map(|t| u::xyz2quadkey(t.x, t.y, t.z)).collect();
    let n = tiles.len();
    let read = || {
        keys.iter().fold(0, |h, k| {
            let (x, y, z) = u::quadkey2xyz(k).unwrap();
            fold_tile(h, x, y, z)
        })
    };
    one("rust", j, "quadkey2xyz", n, read);
    one("rust", j, "quadkey2xyz/byte", keys.iter().map(String::len).sum(), read);
    one("rust", j, "xyz2quadkey", n, || {
        tiles.iter().fold(0, |h, t| {
            let k = u::xyz2quadkey(t.x, t.y, t.z);
            let b = k.as_bytes();
            fold(h, u64::from(b[0]) << 16 | u64::from(b[b.len() - 1]) << 8 | b.len() as u64)
        })
    });
    write_entries(j, "neighbors", &tiles, |t| u::neighbors(t.x, t.y, t.z));
    for d in [1u8, 4, 6] {
        // As children_input of the C++ runners.
        let ts: Vec<Tile> = tiles.iter().copied().filter(|t| t.z <= 23).take(65536 >> (2 * d)).collect();
        write_entries(j, &format!("children+{d}"), &ts, |t| u::children(t.x, t.y, t.z, Some(t.z + d)));
    }
}

/// The calls that give tiles, which elsewhere are entries: the hash that is compared is taken before the timing, as in the C++ runners.
fn write_entries(j: &Job, op: &str, tiles: &[Tile], f: impl Fn(&Tile) -> Vec<Tile>) {
    let h = tiles.iter().fold(NO_ANSWERS, |h, t| answer_hash(h, &f(t).iter().map(entry_of).collect::<Vec<u64>>()));
    let t = measure(|| {
        _ = black_box(tiles.iter().fold(0, |used, t| {
            let v = f(t);
            fold(used, entry_of(&v[0]) ^ entry_of(&v[v.len() - 1]) ^ v.len() as u64)
        }))
    });
    emit("rust", j, op, "call", &Answered(tiles.len(), tiles.len(), h), t, 1);
}

fn main() {
    let dir = std::env::args().nth(1).expect("usage: rust DATADIR");
    for j in load_jobs(Path::new(&dir)) {
        match j.kind.as_str() {
            "settle" => {
                run_set("rust", &j, "settle", |s| simplify(s, None));
                run_set("rust", &j, "settle_v1", |s| simplify_v1(s, None));
                run_set("rust", &j, "merge", |s| merge(s, None).0);
            }
            "calls" => {
                short_calls("rust", &j, u::to_id, u::from_id, u::xyz2rmid, u::rmid2xyz, u::parent);
                short_calls(
                    "rust_called",
                    &j,
                    black_box(u::to_id as fn(u32, u32, u8) -> u64),
                    black_box(u::from_id as fn(u64) -> Tile),
                    black_box(u::xyz2rmid as fn(u32, u32, u8) -> u64),
                    black_box(u::rmid2xyz as fn(u64) -> Xyz),
                    black_box(u::parent as fn(u32, u32, u8, Option<u8>) -> Option<Tile>),
                );
                long_calls(&j);
            }
            _ => {}
        }
    }
}
