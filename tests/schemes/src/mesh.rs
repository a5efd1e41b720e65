//! A mesh in slices (document 01, section 2), and the check of C1 to C9, written from document 01 and not from the code.

pub const NONE: u32 = u32::MAX;
pub const LIMIT: usize = 1_048_576;

/// The seven slices of a mesh.
#[derive(Clone, Debug, Default)]
pub struct Slices {
    pub outs: Vec<u32>,
    /// Eight words an edge: face, head, next, prev of halfedge 2e, then of 2e + 1.
    pub edges: Vec<u32>,
    pub faces: Vec<u32>,
    pub vmarks: Vec<u8>,
    pub emarks: Vec<u8>,
    pub fmarks: Vec<u8>,
    pub points: Vec<f64>,
}

/// How many elements each slice of a mesh has.
pub fn lengths([v, e, f]: [usize; 3]) -> [usize; 7] {
    [v, 8usize.saturating_mul(e), f, v, e, f, 3usize.saturating_mul(v)]
}

/// The same bits, any NaN for any other.
pub fn same_numbers(a: &[f64], b: &[f64]) -> bool {
    a.len() == b.len() && a.iter().zip(b).all(|(x, y)| x.to_bits() == y.to_bits() || x.is_nan() && y.is_nan())
}

impl Slices {
    pub fn lengths(&self) -> [usize; 7] {
        [self.outs.len(), self.edges.len(), self.faces.len(), self.vmarks.len(), self.emarks.len(), self.fmarks.len(), self.points.len()]
    }

    /// The name of a slice that is not the same as another's, if there is one.
    pub fn differs(&self, other: &Slices) -> Option<&'static str> {
        let same = [
            ("outs", self.outs == other.outs),
            ("edges", self.edges == other.edges),
            ("faces", self.faces == other.faces),
            ("vmarks", self.vmarks == other.vmarks),
            ("emarks", self.emarks == other.emarks),
            ("fmarks", self.fmarks == other.fmarks),
            ("points", same_numbers(&self.points, &other.points)),
        ];
        same.iter().find(|(_, same)| !same).map(|(name, _)| *name)
    }
}

/// A mesh as it is handed over: its slices may be longer or shorter than its counts say.
#[derive(Clone, Debug, Default)]
pub struct Given {
    pub counts: [usize; 3],
    pub slices: Slices,
}

impl Given {
    /// The mesh without what is past its counts; its slices are long enough.
    pub fn used(&self) -> Slices {
        let s = &self.slices;
        let [v, e, f] = self.counts;
        Slices {
            outs: s.outs[..v].to_vec(),
            edges: s.edges[..8 * e].to_vec(),
            faces: s.faces[..f].to_vec(),
            vmarks: s.vmarks[..v].to_vec(),
            emarks: s.emarks[..e].to_vec(),
            fmarks: s.fmarks[..f].to_vec(),
            points: s.points[..3 * v].to_vec(),
        }
    }
}

/// A place by its kind (0 vertex, 1 halfedge, 2 edge, 3 face) and index.
pub type Place = (u32, u32);

const VERTEX: u32 = 0;
const HALFEDGE: u32 = 1;
const EDGE: u32 = 2;
const FACE: u32 = 3;

impl Slices {
    fn half(&self, h: u32, i: usize) -> u32 { self.edges[4 * h as usize + i] }
    pub fn face(&self, h: u32) -> u32 { self.half(h, 0) }
    pub fn head(&self, h: u32) -> u32 { self.half(h, 1) }
    pub fn next(&self, h: u32) -> u32 { self.half(h, 2) }
    pub fn prev(&self, h: u32) -> u32 { self.half(h, 3) }
    pub fn tail(&self, h: u32) -> u32 { self.head(h ^ 1) }

    fn is_vertex(&self, v: u32) -> bool { self.vmarks.get(v as usize) == Some(&0) }
    fn is_halfedge(&self, h: u32) -> bool { self.emarks.get(h as usize / 2) == Some(&0) }
    fn is_face(&self, f: u32) -> bool { self.fmarks.get(f as usize) == Some(&0) }

    fn vertices(&self) -> impl Iterator<Item = u32> { (0..self.vmarks.len() as u32).filter(|v| self.is_vertex(*v)) }
    fn halfedges(&self) -> impl Iterator<Item = u32> { (0..2 * self.emarks.len() as u32).filter(|h| self.is_halfedge(*h)) }
    fn the_faces(&self) -> impl Iterator<Item = u32> { (0..self.fmarks.len() as u32).filter(|f| self.is_face(*f)) }

    /// The halfedges from h by next, then by the way around a vertex. Both end where next and prev undo each other.
    fn round(&self, h: u32, step: impl Fn(u32) -> u32) -> Vec<u32> {
        let mut met = vec![h];
        let mut g = step(h);
        while g != h {
            met.push(g);
            g = step(g);
        }
        met
    }
    fn face_loop(&self, f: u32) -> Vec<u32> { self.round(self.faces[f as usize], |h| self.next(h)) }
    fn turn(&self, h: u32) -> Vec<u32> { self.round(h, |h| self.prev(h) ^ 1) }

    /// The sum of the face lengths, where the mesh is consistent and nothing is deleted.
    pub fn corners(&self) -> usize { self.edges.chunks(4).filter(|half| half[0] != NONE).count() }

    /// What is marked deleted: faces, then edges, then vertices, lowest index.
    pub fn deleted(&self) -> Option<Place> {
        [(FACE, &self.fmarks), (EDGE, &self.emarks), (VERTEX, &self.vmarks)]
            .iter()
            .find_map(|(kind, marks)| marks.iter().position(|k| *k != 0).map(|i| (*kind, i as u32)))
    }

    /// The lowest broken rule and its first place.
    pub fn fault(&self) -> Option<(u32, Place)> {
        self.links_out_of_range()
            .map(|place| (1, place))
            .or_else(|| self.first_halfedge(2, |h| self.prev(self.next(h)) != h || self.next(self.prev(h)) != h))
            .or_else(|| self.first_halfedge(3, |h| self.tail(self.next(h)) != self.head(h) || self.face(self.next(h)) != self.face(h)))
            .or_else(|| self.broken_loop().map(|f| (4, (FACE, f))))
            .or_else(|| self.first_halfedge(5, |h| self.face(h) == NONE && self.face(h ^ 1) == NONE))
            .or_else(|| self.first_halfedge(6, |h| self.next(h) == h ^ 1))
            .or_else(|| self.the_faces().find(|f| self.degenerate(*f)).map(|f| (7, (FACE, f))))
            .or_else(|| self.vertex_fault())
    }

    fn first_halfedge(&self, rule: u32, broken: impl Fn(u32) -> bool) -> Option<(u32, Place)> {
        self.halfedges().find(|h| broken(*h)).map(|h| (rule, (HALFEDGE, h)))
    }

    fn links_out_of_range(&self) -> Option<Place> {
        let vertex = |v: &u32| self.outs[*v as usize] != NONE && !self.is_halfedge(self.outs[*v as usize]);
        let halfedge = |h: &u32| {
            let f = self.face(*h);
            f != NONE && !self.is_face(f) || !self.is_vertex(self.head(*h)) || !self.is_halfedge(self.next(*h)) || !self.is_halfedge(self.prev(*h))
        };
        let face = |f: &u32| !self.is_halfedge(self.faces[*f as usize]);
        self.vertices().find(vertex).map(|v| (VERTEX, v))
            .or_else(|| self.halfedges().find(halfedge).map(|h| (HALFEDGE, h)))
            .or_else(|| self.the_faces().find(face).map(|f| (FACE, f)))
    }

    fn broken_loop(&self) -> Option<u32> {
        let mut bearers = vec![0; self.faces.len()];
        for h in self.halfedges().filter(|h| self.face(*h) != NONE) {
            bearers[self.face(h) as usize] += 1;
        }
        self.the_faces().find(|f| self.face(self.faces[*f as usize]) != *f || self.face_loop(*f).len() != bearers[*f as usize])
    }

    fn degenerate(&self, f: u32) -> bool {
        let mut heads: Vec<u32> = self.face_loop(f).iter().map(|h| self.head(*h)).collect();
        let length = heads.len();
        heads.sort_unstable();
        heads.dedup();
        length < 3 || heads.len() != length
    }

    fn vertex_fault(&self) -> Option<(u32, Place)> {
        let mut leaving = vec![vec![]; self.outs.len()];
        for h in self.halfedges() {
            leaving[self.tail(h) as usize].push(h);
        }
        let turns = |v: &u32| {
            let (h, all) = (self.outs[*v as usize], &leaving[*v as usize]);
            if h == NONE {
                return all.is_empty();
            }
            let mut met = if self.tail(h) == *v { self.turn(h) } else { return false };
            met.sort_unstable();
            met == *all
        };
        let rims = |v: &u32| {
            let rim: Vec<u32> = leaving[*v as usize].iter().copied().filter(|h| self.face(*h) == NONE).collect();
            rim.is_empty() || rim == [self.outs[*v as usize]]
        };
        self.vertices().find(|v| !turns(v)).map(|v| (8, (VERTEX, v)))
            .or_else(|| self.vertices().find(|v| !rims(v)).map(|v| (9, (VERTEX, v))))
    }
}
