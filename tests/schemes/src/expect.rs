//! What document 01, section 4, says of a Catmull-Clark call: the answer by plain rules, the result of a call that is done by the Rust.
use crate::library::{Answer, GUARD, Lent, Subdivided};
use crate::mesh::{Given, LIMIT, Slices, lengths};
use alum_oracle::raw::{Raw, run};

/// Elements of the seven slices of a result and of the work slice.
pub type Room = [usize; 8];

/// The counts after so many passes and the work that they need (section 3's table, section 4's six numbers for each element).
pub fn needs(passes: u32, mut counts: [usize; 3], mut corners: usize) -> ([usize; 3], usize) {
    let mut work = 0;
    for _ in 0..passes {
        let [v, e, f] = counts;
        work = 6 * (v + e + f);
        counts = [v + e + f, 2 * e + corners, corners];
        corners *= 4;
    }
    (counts, work)
}

/// The room for exactly these counts and this work.
pub fn exact(counts: [usize; 3], work: usize) -> Room {
    let [a, b, c, d, e, f, g] = lengths(counts);
    [a, b, c, d, e, f, g, work]
}

fn too_short(room: &[usize], wanted: &[usize]) -> bool { room.iter().zip(wanted).any(|(n, wanted)| n < wanted) }

/// Answers 1 to 5 in their order, or the counts of a result.
pub fn refusal(passes: u32, g: &Given, room: &Room) -> Result<[usize; 3], Answer> {
    let answer = |number, values| Err(Answer { number, values });
    if passes > 12 {
        return answer(1, [0; 3]);
    }
    if too_short(&g.slices.lengths(), &lengths(g.counts)) || g.counts.iter().any(|n| *n > LIMIT) {
        return answer(2, [0; 3]);
    }
    let m = g.used();
    if let Some((rule, (kind, index))) = m.fault() {
        return answer(3, [rule, kind, index]);
    }
    if let (1.., Some((kind, index))) = (passes, m.deleted()) {
        return answer(4, [kind, index, 0]);
    }
    let (counts, work) = needs(passes, g.counts, if passes > 0 { m.corners() } else { 0 });
    if too_short(room, &exact(counts, work)) || counts.iter().any(|n| *n > LIMIT) {
        return answer(5, [0; 3]);
    }
    Ok(counts)
}

/// A mesh as the oracle has it, and back.
pub fn to_raw(m: &Slices) -> Raw {
    Raw {
        vlinks: m.outs.clone(),
        edges: m.edges.clone(),
        faces: m.faces.clone(),
        points: m.points.iter().map(|x| x.to_bits()).collect(),
        marks: [&m.vmarks[..], &m.emarks, &m.fmarks].concat(),
    }
}

pub fn from_raw(raw: Raw) -> Slices {
    let (v, e, _) = raw.counts();
    Slices {
        vmarks: raw.marks[..v].to_vec(),
        emarks: raw.marks[v..v + e].to_vec(),
        fmarks: raw.marks[v + e..].to_vec(),
        points: raw.points.iter().map(|b| f64::from_bits(*b)).collect(),
        outs: raw.vlinks,
        edges: raw.edges,
        faces: raw.faces,
    }
}

/// What the Rust makes of a mesh; zero passes copy it.
fn subdivided(passes: u32, update: bool, m: Slices) -> Slices {
    if passes == 0 {
        return m;
    }
    let mut mesh = to_raw(&m).load().expect("the mesh is loaded");
    run(&mut mesh, &["catmull", &passes.to_string(), if update { "1" } else { "0" }]).expect("the Rust refuses nothing here");
    from_raw(Raw::dump(&mesh).expect("the mesh is read out"))
}

/// The used part, then zeros up to what is lent; what is behind stays.
fn lay<T: Copy + Default>(used: &[T], old: &mut [T]) {
    let lent = old.len() - GUARD;
    old[..used.len()].copy_from_slice(used);
    old[used.len()..lent].fill(T::default());
}

fn lay_all(used: &Slices, lent: &mut Lent) {
    let r = &mut lent.result;
    lay(&used.outs, &mut r.outs);
    lay(&used.edges, &mut r.edges);
    lay(&used.faces, &mut r.faces);
    lay(&used.vmarks, &mut r.vmarks);
    lay(&used.emarks, &mut r.emarks);
    lay(&used.fmarks, &mut r.fmarks);
    lay(&used.points, &mut r.points);
    lay(&[], &mut lent.work);
}

/// The answer, and what is lent as it is to be afterwards.
pub fn expected(passes: u32, update: u32, g: &Given, room: &Room, lent: &mut Lent) -> Subdivided {
    match refusal(passes, g, room) {
        Ok(counts) => {
            let made = subdivided(passes, update != 0, g.used());
            assert_eq!(made.lengths(), lengths(counts), "the Rust's counts are those of document 01's table");
            lay_all(&made, lent);
            Subdivided { answer: Answer { number: 0, values: [0; 3] }, counts, flag: (update != 0) as u32 }
        }
        Err(answer) => {
            if answer.number == 5 {
                lay_all(&Slices::default(), lent);
            }
            Subdivided { answer, counts: [0; 3], flag: 0 }
        }
    }
}
