//! Meshes drawn at random: polygons with a partial gluing of their sides, numbered at random; deleted elements; damage.
//! The ideas are those of oracle/py/gen.py and tests/random_check.py.
use crate::mesh::{Given, LIMIT, NONE, Slices};

/// Numbers by splitmix64.
pub struct Rng(pub u64);

impl Rng {
    pub fn word(&mut self) -> u64 {
        self.0 = self.0.wrapping_add(0x9e3779b97f4a7c15);
        let mut z = self.0;
        z = (z ^ z >> 30).wrapping_mul(0xbf58476d1ce4e5b9);
        z = (z ^ z >> 27).wrapping_mul(0x94d049bb133111eb);
        z ^ z >> 31
    }
    pub fn below(&mut self, n: usize) -> usize { (self.word() % n as u64) as usize }
    pub fn between(&mut self, low: usize, high: usize) -> usize { low + self.below(high - low + 1) }
    pub fn percent(&mut self, p: usize) -> bool { self.below(100) < p }
    pub fn pick<T: Copy>(&mut self, from: &[T]) -> T { from[self.below(from.len())] }
    fn shuffle<T>(&mut self, list: &mut [T]) {
        for i in (1..list.len()).rev() {
            list.swap(i, self.below(i + 1));
        }
    }
    fn two(&mut self, n: usize) -> (usize, usize) {
        let (a, b) = (self.below(n), self.below(n - 1));
        (a, if b < a { b } else { b + 1 })
    }
    fn shuffled(&mut self, n: usize) -> Vec<u32> {
        let mut list: Vec<u32> = (0..n as u32).collect();
        self.shuffle(&mut list);
        list
    }
}

// From polygons to a mesh.

/// Polygons with the given numbers of sides, sides numbered through all of them; corner s is the tail of side s.
struct Polygons {
    sizes: Vec<usize>,
    first: Vec<usize>,
    owner: Vec<usize>,
}

impl Polygons {
    fn new(sizes: Vec<usize>) -> Polygons {
        let (mut first, mut owner) = (vec![], vec![]);
        for (f, n) in sizes.iter().enumerate() {
            first.push(owner.len());
            owner.extend(vec![f; *n]);
        }
        Polygons { sizes, first, owner }
    }

    /// The side after s in its polygon.
    fn after(&self, s: usize) -> usize {
        let (start, n) = (self.first[self.owner[s]], self.sizes[self.owner[s]]);
        start + (s - start + 1) % n
    }

    /// The corner that stands for all that become one vertex with each corner, or None if a polygon would meet itself there (C7).
    fn vertices(&self, pairs: &[(usize, usize)]) -> Option<Vec<usize>> {
        let mut parent: Vec<usize> = (0..self.owner.len()).collect();
        fn root(parent: &mut [usize], mut c: usize) -> usize {
            while parent[c] != c {
                parent[c] = parent[parent[c]];
                c = parent[c];
            }
            c
        }
        for (s, t) in pairs {
            for (a, b) in [(*s, self.after(*t)), (*t, self.after(*s))] {
                let (a, b) = (root(&mut parent, a), root(&mut parent, b));
                parent[a] = b;
            }
        }
        let roots: Vec<usize> = (0..parent.len()).map(|c| root(&mut parent, c)).collect();
        let apart = |f: usize| {
            let mut corners = roots[self.first[f]..self.first[f] + self.sizes[f]].to_vec();
            corners.sort_unstable();
            corners.dedup();
            corners.len() == self.sizes[f]
        };
        (0..self.sizes.len()).all(apart).then_some(roots)
    }

    /// The mesh in which pairs of sides are glued against each other, with numbers at random. The gluing keeps C7.
    fn glue(&self, pairs: &[(usize, usize)], isolated: usize, rng: &mut Rng) -> Slices {
        let roots = self.vertices(pairs).expect("a gluing that keeps C7");
        let mut mate = vec![None; self.owner.len()];
        for (s, t) in pairs {
            (mate[*s], mate[*t]) = (Some(*t), Some(*s));
        }
        let mut edges: Vec<(usize, bool)> = (0..mate.len()).filter(|s| mate[*s].is_none_or(|t| *s < t)).map(|s| (s, rng.percent(50))).collect();
        rng.shuffle(&mut edges);
        let mut half = vec![0; mate.len()];
        for (e, (s, turned)) in edges.iter().enumerate() {
            half[*s] = 2 * e as u32 + *turned as u32;
            if let Some(t) = mate[*s] {
                half[t] = half[*s] ^ 1;
            }
        }
        let corners: Vec<usize> = (0..roots.len()).filter(|c| roots[*c] == *c).collect();
        let number = rng.shuffled(corners.len() + isolated);
        let mut vertex = vec![0; roots.len()];
        for (i, c) in corners.iter().enumerate() {
            vertex[*c] = number[i];
        }
        let vertex: Vec<u32> = roots.iter().map(|r| vertex[*r]).collect();
        self.links(&mate, &half, &vertex, number.len(), edges.len(), rng)
    }

    /// The links: of the sides first, then of the rim.
    fn links(&self, mate: &[Option<usize>], half: &[u32], vertex: &[u32], nv: usize, ne: usize, rng: &mut Rng) -> Slices {
        let number = rng.shuffled(self.sizes.len());
        let mut m = Slices { outs: vec![NONE; nv], edges: vec![NONE; 8 * ne], faces: vec![NONE; number.len()], ..Slices::default() };
        let mut rim_leaving = vec![NONE; nv];
        for s in 0..mate.len() {
            let (h, next) = (half[s], self.after(s));
            m.edges[4 * h as usize] = number[self.owner[s]];
            m.edges[4 * h as usize + 1] = vertex[next];
            follow(&mut m, h, half[next]);
            if mate[s].is_none() {
                m.edges[4 * (h ^ 1) as usize + 1] = vertex[s];
                rim_leaving[vertex[next] as usize] = h ^ 1;
            }
            if m.outs[vertex[s] as usize] == NONE || rng.percent(40) {
                m.outs[vertex[s] as usize] = h;
            }
        }
        for s in (0..mate.len()).filter(|s| mate[*s].is_none()) {
            let r = half[s] ^ 1;
            let next = rim_leaving[m.head(r) as usize];
            follow(&mut m, r, next);
        }
        for (f, n) in number.iter().enumerate() {
            m.faces[*n as usize] = half[self.first[f] + rng.below(self.sizes[f])];
        }
        for v in (0..nv).filter(|v| rim_leaving[*v] != NONE) {
            m.outs[v] = rim_leaving[v];
        }
        (m.vmarks, m.emarks, m.fmarks) = (vec![0; nv], vec![0; ne], vec![0; number.len()]);
        m
    }
}

/// n follows h.
fn follow(m: &mut Slices, h: u32, n: u32) {
    m.edges[4 * h as usize + 2] = n;
    m.edges[4 * n as usize + 3] = h;
}

/// One to seven random polygons, sides glued one pair after the other as long as C7 holds.
fn random_glue(rng: &mut Rng) -> Slices {
    let sizes = (0..rng.between(1, 7)).map(|_| rng.pick(&[3, 3, 3, 4, 4, 5, 6, 7])).collect();
    let polygons = Polygons::new(sizes);
    let mut free: Vec<usize> = (0..polygons.owner.len()).collect();
    let mut pairs = vec![];
    for _ in 0..rng.below(free.len() + 1) {
        if free.len() < 2 {
            break;
        }
        let (i, j) = rng.two(free.len());
        pairs.push((free[i], free[j]));
        if polygons.vertices(&pairs).is_some() {
            let (s, t) = (free[i], free[j]);
            free.retain(|x| *x != s && *x != t);
        } else {
            pairs.pop();
        }
    }
    let isolated = rng.pick(&[0, 0, 0, 1, 2]);
    polygons.glue(&pairs, isolated, rng)
}

/// Faces as vertex loops; sides u to v and v to u are glued. Vertices come apart where only a point is shared.
fn from_faces(faces: &[Vec<usize>], isolated: usize, rng: &mut Rng) -> Slices {
    let mut waiting = std::collections::HashMap::new();
    let (mut pairs, mut s) = (vec![], 0);
    for f in faces {
        for i in 0..f.len() {
            let (u, v) = (f[i], f[(i + 1) % f.len()]);
            match waiting.remove(&(v, u)) {
                Some(t) => pairs.push((t, s)),
                None => assert!(waiting.insert((u, v), s).is_none()),
            }
            s += 1;
        }
    }
    Polygons::new(faces.iter().map(|f| f.len()).collect()).glue(&pairs, isolated, rng)
}

// Face lists.

fn ngon(n: usize) -> Vec<Vec<usize>> { vec![(0..n).collect()] }

fn prism(n: usize) -> Vec<Vec<usize>> {
    let mut faces = vec![(0..n).rev().collect(), (n..2 * n).collect()];
    faces.extend((0..n).map(|i| vec![i, (i + 1) % n, n + (i + 1) % n, n + i]));
    faces
}

/// k rings of n quads, open at both ends.
fn tube(n: usize, k: usize) -> Vec<Vec<usize>> { quads(k, n, |j, i| j * n + i % n) }

/// a x b quads, with a rim.
fn grid(a: usize, b: usize) -> Vec<Vec<usize>> { quads(a, b, |i, j| i * (b + 1) + j) }

/// a x b quads, closed; a and b at least 3.
fn torus(a: usize, b: usize) -> Vec<Vec<usize>> { quads(a, b, |i, j| i % a * b + j % b) }

fn quads(a: usize, b: usize, at: impl Fn(usize, usize) -> usize) -> Vec<Vec<usize>> {
    (0..a * b).map(|k| (k / b, k % b)).map(|(i, j)| vec![at(i, j), at(i, j + 1), at(i + 1, j + 1), at(i + 1, j)]).collect()
}

/// n triangles around vertex n.
fn wheel(n: usize) -> Vec<Vec<usize>> { (0..n).map(|i| vec![n, i, (i + 1) % n]).collect() }

fn bipyramid(n: usize) -> Vec<Vec<usize>> {
    let mut faces = wheel(n);
    faces.extend((0..n).map(|i| vec![n + 1, (i + 1) % n, i]));
    faces
}

/// One of the shapes above, sometimes with faces taken out, a second shell, isolated vertices.
fn structured(rng: &mut Rng) -> Slices {
    let n = rng.between(3, 8);
    let mut faces = match rng.below(8) {
        0 => ngon(n),
        1 => prism(n),
        2 => tube(rng.between(3, 6), rng.between(1, 3)),
        3 => wheel(n),
        4 => bipyramid(n),
        5 => torus(rng.between(3, 4), rng.between(3, 4)),
        _ => grid(rng.between(1, 5), rng.between(1, 5)),
    };
    if rng.percent(40) {
        let out = rng.pick(&[5, 15, 40]);
        faces.retain(|_| !rng.percent(out));
    }
    if rng.percent(25) {
        let piece = rng.pick(&[ngon as fn(usize) -> Vec<Vec<usize>>, prism, wheel, bipyramid])(rng.between(3, 5));
        faces.extend(piece.iter().map(|f| f.iter().map(|v| 1000 + v).collect()));
    }
    rng.shuffle(&mut faces);
    let isolated = rng.pick(&[0, 0, 0, 1, 3]);
    from_faces(&faces, isolated, rng)
}

const ODD: [u64; 12] = [
    0x7ff8000000000000, 0xfff8000000000000, 0x7ff0000000000000, 0xfff0000000000000, 0x8000000000000000, 0, 1, 0x8000000000000001,
    0x000fffffffffffff, 0x0010000000000000, 0x7fefffffffffffff, 0xffefffffffffffff,
];

/// Coordinates: small integers, uniform, of all exponents, or with infinities, NaNs, zeros and subnormals among them.
fn coordinates(m: &mut Slices, rng: &mut Rng) {
    let kind = rng.below(5);
    let one = |rng: &mut Rng| match kind {
        0 => rng.between(0, 40) as f64 - 20.0,
        1 | 2 => (rng.word() >> 11) as f64 / (1u64 << 53) as f64 * 20.0 - 10.0,
        3 => f64::from_bits(rng.word() & !(1 << 62)),
        _ if rng.percent(35) => f64::from_bits(rng.pick(&ODD)),
        _ => f64::from_bits(rng.word() & !(1 << 52)),
    };
    m.points = (0..3 * m.outs.len()).map(|_| one(rng)).collect();
}

/// A consistent mesh with nothing deleted; now and then one without faces.
fn mesh(rng: &mut Rng) -> Slices {
    let mut m = match rng.below(100) {
        0..3 => from_faces(&[], rng.between(0, 3), rng),
        3..50 => random_glue(rng),
        _ => structured(rng),
    };
    coordinates(&mut m, rng);
    m
}

/// A closed mesh of a x b quads.
pub fn torus_mesh(a: usize, b: usize, rng: &mut Rng) -> Slices {
    let mut m = from_faces(&torus(a, b), 0, rng);
    coordinates(&mut m, rng);
    m
}

// Deleted elements.

/// The same mesh with deleted vertices, edges and faces of any content put in between.
fn with_deleted(m: &Slices, rng: &mut Rng) -> Slices {
    let places = |marks: &[u8], more: usize, rng: &mut Rng| {
        let mut new = rng.shuffled(marks.len() + more)[..marks.len()].to_vec();
        new.sort_unstable();
        new
    };
    let more = [rng.below(3), rng.below(3), rng.between(1, 3)];
    let (vs, es, fs) = (places(&m.vmarks, more[0], rng), places(&m.emarks, more[1], rng), places(&m.fmarks, more[2], rng));
    let (nv, ne, nf) = (vs.len() + more[0], es.len() + more[1], fs.len() + more[2]);
    let half = |h: u32| if h == NONE { NONE } else { 2 * es[h as usize / 2] + h % 2 };
    let mut words = |n: usize| -> Vec<u32> { (0..n).map(|_| rng.word() as u32 >> (rng.word() % 32)).collect() };
    let mut out = Slices { outs: words(nv), edges: words(8 * ne), faces: words(nf), points: vec![0.5; 3 * nv], ..Slices::default() };
    (out.vmarks, out.emarks, out.fmarks) = (vec![1; nv], vec![255; ne], vec![2; nf]);
    for (v, w) in vs.iter().map(|w| *w as usize).enumerate() {
        out.outs[w] = half(m.outs[v]);
        out.points[3 * w..3 * w + 3].copy_from_slice(&m.points[3 * v..3 * v + 3]);
        out.vmarks[w] = 0;
    }
    for h in 0..2 * es.len() as u32 {
        let at = 4 * half(h) as usize;
        let face = if m.face(h) == NONE { NONE } else { fs[m.face(h) as usize] };
        out.edges[at..at + 4].copy_from_slice(&[face, vs[m.head(h) as usize], half(m.next(h)), half(m.prev(h))]);
        out.emarks[at / 8] = 0;
    }
    for (f, g) in fs.iter().map(|g| *g as usize).enumerate() {
        out.faces[g] = half(m.faces[f]);
        out.fmarks[g] = 0;
    }
    out
}

// Damage.

/// new for old in every fourth word from the offset on: one face (offset 0) or one vertex (offset 1) becomes another.
fn renumber(m: &mut Slices, offset: usize, old: u32, new: u32) {
    m.edges.iter_mut().skip(offset).step_by(4).filter(|w| **w == old).for_each(|w| *w = new);
}

fn odd_word(m: &mut Slices, rng: &mut Rng) {
    let (v, e, f) = (m.vmarks.len() as u32, m.emarks.len() as u32, m.fmarks.len() as u32);
    let small = rng.below(60) as u32;
    let word = rng.pick(&[NONE, NONE - 1, 1 << 31, 0, small, small, 2 * e, (2 * e).wrapping_sub(1), v, v.wrapping_sub(1), f, f.wrapping_sub(1)]);
    let words = match rng.below(5) {
        0 => &mut m.outs,
        1 => &mut m.faces,
        _ => &mut m.edges,
    };
    if !words.is_empty() {
        let i = rng.below(words.len());
        words[i] = word;
    }
}

fn odd_mark(m: &mut Slices, rng: &mut Rng) {
    let mark = rng.pick(&[1, 1, 2, 128, 255]);
    let marks = match rng.below(3) {
        0 => &mut m.vmarks,
        1 => &mut m.emarks,
        _ => &mut m.fmarks,
    };
    if !marks.is_empty() {
        let i = rng.below(marks.len());
        marks[i] = mark;
    }
}

/// Two halfedges exchange what follows them: loops are cut or joined.
fn exchange(m: &mut Slices, rng: &mut Rng) {
    let (a, b) = rng.two(2 * m.emarks.len());
    let (x, y) = (m.next(a as u32), m.next(b as u32));
    if (x.max(y) as usize) < 2 * m.emarks.len() {
        follow(m, a as u32, y);
        follow(m, b as u32, x);
    }
}

/// Two vertices become one.
fn one_vertex(m: &mut Slices, rng: &mut Rng) {
    let (old, new) = rng.two(m.vmarks.len());
    renumber(m, 1, old as u32, new as u32);
    if rng.percent(70) {
        m.outs[old] = NONE;
    }
}

/// Two faces become one with two loops.
fn one_face(m: &mut Slices, rng: &mut Rng) {
    if m.fmarks.len() > 1 {
        let (old, new) = rng.two(m.fmarks.len());
        renumber(m, 0, old as u32, new as u32);
        m.fmarks[old] = rng.pick(&[0, 1, 1]);
    }
}

/// A face becomes a hole.
fn hole(m: &mut Slices, rng: &mut Rng) {
    let f = rng.below(m.fmarks.len());
    renumber(m, 0, f as u32, NONE);
    m.fmarks[f] = 1;
}

/// The two faces of an edge become one whose loop runs along the edge and straight back.
fn spike(m: &mut Slices, rng: &mut Rng) {
    let n = 2 * m.emarks.len() as u32;
    let h = rng.below(n as usize) as u32;
    let (before, after, old, new) = (m.prev(h), m.next(h ^ 1), m.face(h ^ 1), m.face(h));
    if before < n && after < n && old != new && old.max(new) < m.fmarks.len() as u32 {
        renumber(m, 0, old, new);
        m.fmarks[old as usize] = 1;
        follow(m, h ^ 1, h);
        follow(m, before, after);
    }
}

/// One to three damages to a mesh; most leave it inconsistent.
fn damage(m: &mut Slices, rng: &mut Rng) {
    for _ in 0..rng.between(1, 3) {
        let with_faces = m.vmarks.len() > 1 && !m.emarks.is_empty() && !m.fmarks.is_empty();
        match rng.below(8) {
            0 | 1 => odd_word(m, rng),
            2 => odd_mark(m, rng),
            3 if with_faces => exchange(m, rng),
            4 if with_faces => one_vertex(m, rng),
            5 if with_faces => one_face(m, rng),
            6 if with_faces => hole(m, rng),
            7 if with_faces => spike(m, rng),
            _ => {}
        }
    }
}

/// Slices longer than their counts, with anything after; now and then one that is one short, or a count that is not the mesh's.
fn handed(m: Slices, rng: &mut Rng) -> Given {
    let mut g = Given { counts: [m.vmarks.len(), m.emarks.len(), m.fmarks.len()], slices: m };
    let s = &mut g.slices;
    for words in [&mut s.outs, &mut s.edges, &mut s.faces] {
        words.extend((0..rng.pick(&[0, 0, 0, 1, 9])).map(|_| rng.word() as u32));
    }
    for marks in [&mut s.vmarks, &mut s.emarks, &mut s.fmarks] {
        marks.extend((0..rng.pick(&[0, 0, 0, 1, 9])).map(|_| rng.word() as u8));
    }
    s.points.extend((0..rng.pick(&[0, 0, 0, 1, 9])).map(|_| f64::from_bits(rng.word())));
    if rng.percent(3) {
        let wanted = crate::mesh::lengths(g.counts);
        match rng.below(7) {
            i @ 0..3 => [&mut s.outs, &mut s.edges, &mut s.faces][i].truncate(wanted[i].saturating_sub(1)),
            i @ 3..6 => [&mut s.vmarks, &mut s.emarks, &mut s.fmarks][i - 3].truncate(wanted[i].saturating_sub(1)),
            i => s.points.truncate(wanted[i].saturating_sub(1)),
        }
    }
    if rng.percent(3) {
        let i = rng.below(3);
        g.counts[i] = rng.pick(&[g.counts[i] + 1, g.counts[i].saturating_sub(1), LIMIT, LIMIT + 1, (1 << 32) + g.counts[i], (1 << 61) + g.counts[i], usize::MAX]);
    }
    g
}

/// A mesh as it is handed over: one in seven has deleted elements, one in seven is damaged.
pub fn given(rng: &mut Rng) -> Given {
    let mut m = mesh(rng);
    if rng.percent(15) {
        m = with_deleted(&m, rng);
    }
    if rng.percent(15) {
        damage(&mut m, rng);
    }
    handed(m, rng)
}
