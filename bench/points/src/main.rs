// Times the face-point sum per corner, Loop's vertex rule per vertex and the whole points of a Catmull-Clark pass, against the same sums in Rust on the
// same flat slices, in one run, and compares every bit.
use std::time::Instant;

extern "C" {
    fn timed_faces(ep: *const u32, el: usize, fp: *const u32, fl: usize, pp: *const f64, pl: usize, v: usize, e: usize, f: usize, wp: *mut f64, wl: usize);
    fn timed_vertices(op: *const u32, ol: usize, ep: *const u32, el: usize, pp: *const f64, pl: usize, v: usize, e: usize, f: usize, wp: *mut f64, wl: usize) -> u32;
    fn timed_catmull(op: *const u32, ol: usize, ep: *const u32, el: usize, fp: *const u32, fl: usize, pp: *const f64, pl: usize, v: usize, e: usize, f: usize, wp: *mut f64, wl: usize);
}

// A torus of n by n squares, or of 2 n n triangles: every vertex is interior.
struct Mesh { outs: Vec<u32>, edges: Vec<u32>, faces: Vec<u32>, points: Vec<f64> }

fn torus(n: usize, triangles: bool) -> Mesh {
    let at = |i: usize, j: usize| (i % n * n + j % n) as u32;
    let mut loops: Vec<Vec<u32>> = Vec::new();
    for i in 0..n {
        for j in 0..n {
            let (a, b, c, d) = (at(i, j), at(i + 1, j), at(i + 1, j + 1), at(i, j + 1));
            if triangles { loops.push(vec![a, b, c]); loops.push(vec![a, c, d]); } else { loops.push(vec![a, b, c, d]); }
        }
    }
    let mut of = std::collections::HashMap::new();
    let mut edges: Vec<u32> = Vec::new();
    let mut outs = vec![u32::MAX; n * n];
    let mut faces = Vec::new();
    for (f, l) in loops.iter().enumerate() {
        let hs: Vec<u32> = (0..l.len()).map(|k| {
            let (a, b) = (l[k], l[(k + 1) % l.len()]);
            let h = *of.entry((a, b)).or_insert_with(|| (edges.len() / 4) as u32);
            if h as usize == edges.len() / 4 { edges.extend([u32::MAX, b, 0, 0, u32::MAX, a, 0, 0]); }
            of.insert((b, a), h ^ 1);
            h
        }).collect();
        for k in 0..hs.len() {
            let (h, m) = (hs[k] as usize, hs.len());
            edges[4 * h] = f as u32; edges[4 * h + 1] = l[(k + 1) % m]; edges[4 * h + 2] = hs[(k + 1) % m]; edges[4 * h + 3] = hs[(k + m - 1) % m];
            outs[l[k] as usize] = hs[k];
        }
        faces.push(hs[0]);
    }
    let mut x = 1u64;
    let mut next = || { x = x.wrapping_mul(6364136223846793005).wrapping_add(1442695040888963407); (x >> 11) as f64 / (1u64 << 53) as f64 };
    Mesh { outs, edges, faces, points: (0..3 * n * n).map(|_| next()).collect() }
}

type P = [f64; 3];
fn add(a: P, b: P) -> P { [a[0] + b[0], a[1] + b[1], a[2] + b[2]] }
fn scale(a: P, s: f64) -> P { [a[0] * s, a[1] * s, a[2] * s] }
fn over(a: P, s: f64) -> P { [a[0] / s, a[1] / s, a[2] / s] }
fn load(p: &[f64], v: usize) -> P { [p[3 * v], p[3 * v + 1], p[3 * v + 2]] }
fn store(p: &mut [f64], v: usize, x: P) { p[3 * v] = x[0]; p[3 * v + 1] = x[1]; p[3 * v + 2] = x[2]; }

fn rust_faces(m: &Mesh, at: usize, work: &mut [f64]) {
    for (f, &s) in m.faces.iter().enumerate() {
        let (mut sum, mut n, mut h) = ([0.0; 3], 0u32, s as usize);
        loop {
            sum = add(sum, load(&m.points, m.edges[4 * h + 1] as usize)); n += 1;
            h = m.edges[4 * h + 2] as usize;
            if h == s as usize { break; }
        }
        store(work, at + f, over(sum, n as f64));
    }
}

fn rust_vertices(m: &Mesh, weights: &[(f64, f64)], work: &mut [f64]) {
    for (v, &s) in m.outs.iter().enumerate() {
        let (mut sum, mut n, mut h) = ([0.0; 3], 0usize, s as usize);
        loop {
            sum = add(sum, load(&m.points, m.edges[4 * h + 1] as usize)); n += 1;
            h = m.edges[4 * h + 3] as usize ^ 1;
            if h == s as usize { break; }
        }
        let w = weights[n];
        store(work, v, add(scale(sum, w.1), scale(load(&m.points, v), w.0)));
    }
}

fn rust_catmull(m: &Mesh, work: &mut [f64]) {
    let (nv, ne) = (m.outs.len(), m.edges.len() / 8);
    rust_faces(m, nv + ne, work);
    for e in 0..ne {
        let w = &m.edges[8 * e..8 * e + 8];
        let s = add(add(add(load(&m.points, w[1] as usize), load(&m.points, w[5] as usize)), load(work, nv + ne + w[0] as usize)), load(work, nv + ne + w[4] as usize));
        store(work, nv + e, scale(s, 0.25));
    }
    for (v, &s) in m.outs.iter().enumerate() {
        let (mut fs, mut ns, mut n, mut h) = ([0.0; 3], [0.0; 3], 0u32, s as usize);
        loop {
            fs = add(fs, load(work, nv + ne + m.edges[4 * h] as usize));
            ns = add(ns, load(&m.points, m.edges[4 * h + 1] as usize)); n += 1;
            h = m.edges[4 * h + 3] as usize ^ 1;
            if h == s as usize { break; }
        }
        let k = n as f64;
        store(work, v, over(add(over(add(fs, ns), k), scale(load(&m.points, v), k - 2.0)), k));
    }
}

fn best(mut f: impl FnMut()) -> f64 {
    (0..15).map(|_| { let t = Instant::now(); f(); t.elapsed().as_nanos() as f64 }).fold(f64::MAX, f64::min)
}

fn line(what: &str, n: usize, per: usize, ours: f64, rust: f64) {
    println!("{what:34} {n:9} {:8.2} {:8.2} {:6.2}", ours / per as f64, rust / per as f64, ours / rust);
}

fn main() {
    println!("{:34} {:>9} {:>8} {:>8} {:>6}", "ns per", "elements", "rattle", "rust", "ratio");
    let mut weights = vec![(0.0, 0.0); 64];
    weights[6] = (0.625, 0.0625);
    for n in [60, 250, 700] {
        let q = torus(n, false);
        let (v, e, f) = (q.outs.len(), q.edges.len() / 8, q.faces.len());
        let (mut a, mut b) = (vec![0.0; 6 * (v + e + f)], vec![0.0; 6 * (v + e + f)]);
        let x = best(|| unsafe { timed_faces(q.edges.as_ptr(), q.edges.len(), q.faces.as_ptr(), f, q.points.as_ptr(), 3 * v, v, e, f, a.as_mut_ptr(), a.len()) });
        let y = best(|| rust_faces(&q, v + e, &mut b));
        assert!(a.iter().zip(&b).all(|(x, y)| x.to_bits() == y.to_bits()));
        line("corner, face points", f, 4 * f, x, y);
        let x = best(|| unsafe { timed_catmull(q.outs.as_ptr(), v, q.edges.as_ptr(), q.edges.len(), q.faces.as_ptr(), f, q.points.as_ptr(), 3 * v, v, e, f, a.as_mut_ptr(), a.len()) });
        let y = best(|| rust_catmull(&q, &mut b));
        assert!(a.iter().zip(&b).all(|(x, y)| x.to_bits() == y.to_bits()));
        line("vertex, whole Catmull-Clark points", v, v, x, y);
        let t = torus(n, true);
        let (v, e, f) = (t.outs.len(), t.edges.len() / 8, t.faces.len());
        let x = best(|| assert!(unsafe { timed_vertices(t.outs.as_ptr(), v, t.edges.as_ptr(), t.edges.len(), t.points.as_ptr(), 3 * v, v, e, f, a.as_mut_ptr(), 3 * v) } == u32::MAX));
        let y = best(|| rust_vertices(&t, &weights, &mut b));
        assert!(a[..3 * v].iter().zip(&b[..3 * v]).all(|(x, y)| x.to_bits() == y.to_bits()));
        line("vertex, Loop interior rule", v, v, x, y);
    }
}
