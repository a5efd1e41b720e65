//! Times, by processor time, the Catmull-Clark call of the static library against the Rust with lean properties, in one run, and compares every word and bit of the results.
//!
//! Memory is cleared beforehand in both: the library's slices are set to zero before each call, and the Rust, which takes its vectors from the heap, finds there
//! a block that was set to ones and given back just before. The library checks the mesh and sets its slices to zero past what is used; the Rust does neither.
use alum_oracle::{
    VH,
    mesh::{PolyMeshF64, Vec3},
    raw::{Raw, run},
};
use schemes::{
    expect::{Room, exact, from_raw, needs, to_raw},
    library::{GUARD, Lent, catmull},
    mesh::{Given, Slices},
};
use std::hint::black_box;

unsafe extern "C" {
    fn mallopt(parameter: i32, value: i32) -> i32;
    fn clock_gettime(id: i32, time: *mut [i64; 2]) -> i32;
}

/// Nanoseconds of processor time of this process (CLOCK_PROCESS_CPUTIME_ID of Linux), which other programs disturb least.
fn cpu() -> f64 {
    let mut t = [0; 2];
    unsafe { clock_gettime(2, &mut t) };
    t[0] as f64 * 1e9 + t[1] as f64
}

/// The heap keeps what is given back to it (glibc: M_TRIM_THRESHOLD, M_MMAP_THRESHOLD), so that memory cleared once stays in place.
fn keep_the_heap() {
    unsafe {
        mallopt(-1, i32::MAX);
        mallopt(-3, i32::MAX);
    }
}

/// A closed cage of a x b quads around a ring.
fn cage(a: u32, b: u32) -> Slices {
    let mut m = PolyMeshF64::new();
    let angle = |i: u32, n: u32| i as f64 / n as f64 * std::f64::consts::TAU;
    for i in 0..a {
        for j in 0..b {
            let (s, t) = (angle(i, a), angle(j, b));
            let r = 3.0 + t.cos();
            m.add_vertex(Vec3(r * s.cos(), r * s.sin(), t.sin())).unwrap();
        }
    }
    let v = |i: u32, j: u32| -> VH { ((i % a) * b + j % b).into() };
    for i in 0..a {
        for j in 0..b {
            m.add_face(&[v(i, j), v(i + 1, j), v(i + 1, j + 1), v(i, j + 1)]).unwrap();
        }
    }
    from_raw(Raw::dump(&m).unwrap())
}

fn given(m: Slices) -> Given { Given { counts: [m.outs.len(), m.faces.len() * 2, m.faces.len()], slices: m } }

fn median(mut times: Vec<f64>) -> (f64, f64) {
    times.sort_by(f64::total_cmp);
    (times[0], times[times.len() / 2])
}

fn zeros(room: &Room) -> Lent {
    let n = |i: usize| room[i] + GUARD;
    let result = Slices {
        outs: vec![0; n(0)], edges: vec![0; n(1)], faces: vec![0; n(2)],
        vmarks: vec![0; n(3)], emarks: vec![0; n(4)], fmarks: vec![0; n(5)], points: vec![0.0; n(6)],
    };
    Lent { result, work: vec![0.0; n(7)] }
}

/// Best and median nanoseconds of processor time of so many passes by the library and by the Rust, in turns, and what they made.
fn timed(passes: u32, g: &Given, runs: usize) -> ((f64, f64), (f64, f64), Given) {
    let (counts, work) = needs(passes, g.counts, g.slices.corners());
    let room = exact(counts, work);
    let mut lent = zeros(&room);
    let raw = to_raw(&g.slices);
    let words = ["catmull", &passes.to_string(), "1"];
    let (mut ours, mut rusts, mut made) = (vec![], vec![], Raw::default());
    for _ in 0..runs {
        clear(&mut lent);
        let start = cpu();
        let answer = catmull(passes, 1, g, &mut lent);
        ours.push(cpu() - start);
        assert_eq!((answer.answer.number, answer.counts), (0, counts));
        let mut mesh = raw.load().unwrap();
        drop(black_box(vec![1u8; 400 * counts[1] + 1_000_000]));
        let start = cpu();
        run(&mut mesh, &words).unwrap();
        rusts.push(cpu() - start);
        made = Raw::dump(black_box(&mesh)).unwrap();
    }
    let left = Given { counts, slices: lent.result };
    assert_eq!(left.used().differs(&from_raw(made)), None, "every word and bit is the same");
    (median(ours), median(rusts), given(left.used()))
}

fn clear(lent: &mut Lent) {
    let r = &mut lent.result;
    [&mut r.outs, &mut r.edges, &mut r.faces].into_iter().for_each(|s| s.fill(0));
    [&mut r.vmarks, &mut r.emarks, &mut r.fmarks].into_iter().for_each(|s| s.fill(0));
    [&mut r.points, &mut lent.work].into_iter().for_each(|s| s.fill(0.0));
}

/// So many single passes by the library, the last of them so many times: for a counter of instructions, by the difference of two such runs.
fn only_passes(passes: usize, times: usize) {
    let mut g = given(cage(16, 8));
    for k in 1..=passes {
        let (counts, work) = needs(1, g.counts, g.slices.corners());
        let mut lent = zeros(&exact(counts, work));
        for _ in 0..if k == passes { times } else { 1 } {
            assert_eq!(catmull(1, 1, &g, &mut lent).counts, counts);
        }
        g = Given { counts, slices: lent.result };
        g = given(g.used());
    }
    println!("edges {}", g.counts[1]);
}

fn main() {
    let words: Vec<usize> = std::env::args().skip(1).map(|w| w.parse().expect("a number")).collect();
    if let [passes, times] = words[..] {
        return only_passes(passes, times);
    }
    keep_the_heap();
    let ((best, median), (rust_best, rust_median), made) = timed(5, &given(cage(8, 5)), 20);
    println!("five passes with update on a closed cage of 40 quads, result {:?}, milliseconds of processor time, best / median of 20", made.counts);
    println!("library {:.2} / {:.2}, Rust {:.2} / {:.2}, ratio {:.2} / {:.2}", best / 1e6, median / 1e6, rust_best / 1e6, rust_median / 1e6, best / rust_best, median / rust_median);
    println!("one pass on what the passes before made of a closed cage of 128 quads, nanoseconds of processor time for each edge written, best of 9");
    let mut g = given(cage(16, 8));
    for _ in 0..6 {
        let (ours, rusts, made) = timed(1, &g, 9);
        let edges = made.counts[1] as f64;
        println!("edges {:>8}: library {:6.1}, Rust {:6.1}, ratio {:.2}", made.counts[1], ours.0 / edges, rusts.0 / edges, ours.0 / rusts.0);
        g = made;
    }
}
