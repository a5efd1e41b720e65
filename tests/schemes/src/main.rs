//! schemes N SEED: N random meshes through the static library's Catmull-Clark call, against the Rust and, where it is refused, document 01's plain rules.
//! Every word, bit, byte and answer is compared, used and unused.
use schemes::draw::{self, Rng};
use schemes::expect::{Room, exact, expected, needs, refusal};
use schemes::library::{GUARD, Lent, Subdivided, catmull};
use schemes::mesh::{Given, Slices, same_numbers};
use std::collections::BTreeMap;

/// Slices of this room with junk in them and behind them.
fn junk(room: &Room, rng: &mut Rng) -> Lent {
    let mut words = |n: usize| -> Vec<u32> { (0..n + GUARD).map(|_| rng.word() as u32).collect() };
    let [outs, edges, faces] = [words(room[0]), words(room[1]), words(room[2])];
    let mut marks = |n: usize| -> Vec<u8> { (0..n + GUARD).map(|_| rng.word() as u8).collect() };
    let [vmarks, emarks, fmarks] = [marks(room[3]), marks(room[4]), marks(room[5])];
    let mut numbers = |n: usize| -> Vec<f64> { (0..n + GUARD).map(|_| f64::from_bits(rng.word() & !(1 << 62))).collect() };
    let [points, work] = [numbers(room[6]), numbers(room[7])];
    Lent { result: Slices { outs, edges, faces, vmarks, emarks, fmarks, points }, work }
}

#[derive(Default)]
struct Tally {
    met: BTreeMap<(u32, u32), usize>,
    calls: usize,
    joined: usize,
    differences: usize,
}

impl Tally {
    fn difference(&mut self, what: String, passes: u32, update: u32, g: &Given, room: &Room) {
        self.differences += 1;
        if self.differences <= 20 {
            println!("{what}: {passes} passes, update {update}, room {room:?}, {g:?}");
        }
    }

    /// One call, compared; gives what was left if it was done.
    fn call(&mut self, passes: u32, update: u32, g: &Given, room: &Room, rng: &mut Rng) -> (Subdivided, Lent) {
        let mut lent = junk(room, rng);
        let (mut wanted, before) = (lent.clone(), g.clone());
        let answer = catmull(passes, update, g, &mut lent);
        let right = expected(passes, update, &before, room, &mut wanted);
        self.calls += 1;
        let rule = if right.answer.number == 3 { right.answer.values[0] } else { 0 };
        *self.met.entry((right.answer.number, rule)).or_default() += 1;
        if answer != right {
            self.difference(format!("answer {answer:?}, not {right:?}"), passes, update, g, room);
        } else if let Some(slice) = lent.result.differs(&wanted.result) {
            self.difference(format!("answer {}, {slice} differ", right.answer.number), passes, update, g, room);
        } else if !same_numbers(&lent.work, &wanted.work) {
            self.difference(format!("answer {}, work differs", right.answer.number), passes, update, g, room);
        } else if before.slices.differs(&g.slices).is_some() {
            self.difference("the mesh that was given has changed".into(), passes, update, g, room);
        }
        (answer, lent)
    }

    /// A call of a passes, then one of the others on what was left, with the flag that came back: the same as all at once.
    fn one_and_one(&mut self, passes: u32, update: u32, g: &Given, rng: &mut Rng, at_once: (Subdivided, Lent), room: &Room) {
        let first = 1 + rng.below(passes as usize - 1) as u32;
        let (counts, work) = needs(first, g.counts, g.used().corners());
        let (a, left) = self.call(first, update, g, &exact(counts, work), rng);
        let second = self.call(passes - first, a.flag, &made((a, left)), room, rng);
        self.joined += 1;
        if second.0 != at_once.0 || made(second).used().differs(&made(at_once).used()).is_some() {
            self.difference(format!("{first} passes and then the others are not all at once"), passes, update, g, room);
        }
    }

    /// One mesh: a call with exact room or more, one with a slice that is one short, one and one.
    fn mesh(&mut self, rng: &mut Rng) {
        let g = draw::given(rng);
        let passes = rng.pick(&[0, 0, 0, 1, 1, 1, 1, 1, 1, 2, 2, 2, 2, 2, 3, 3, 3, 4, 5, 12, 13, u32::MAX]);
        let update = rng.pick(&[0, 0, 1, 1, 1, 2, u32::MAX]);
        let plenty = [usize::MAX; 8];
        let counts = refusal(passes, &g, &plenty);
        let mut room = match counts {
            Ok(_) => {
                let (counts, work) = needs(passes, g.counts, if passes > 0 { g.used().corners() } else { 0 });
                exact(counts, work)
            }
            Err(_) => plenty.map(|_| rng.below(50)),
        };
        let wanted = room;
        if rng.percent(50) {
            room = room.map(|n| n + rng.pick(&[0, 0, 1, 2, 30]));
        }
        let at_once = self.call(passes, update, &g, &room, rng);
        if counts.is_err() {
            return;
        }
        let short = rng.below(8);
        if wanted[short] > 0 {
            let mut room = room;
            room[short] = wanted[short] - 1;
            self.call(passes, update, &g, &room, rng);
        }
        if passes > 1 && at_once.0.answer.number == 0 && rng.percent(40) {
            self.one_and_one(passes, update, &g, rng, at_once, &room);
        }
    }
}

/// The mesh that a call left.
fn made(call: (Subdivided, Lent)) -> Given { Given { counts: call.0.counts, slices: call.1.result } }

/// A closed mesh whose sixth pass has exactly as many edges as are allowed, and one that would have more, with room for both.
fn at_the_limit(tally: &mut Tally, rng: &mut Rng) {
    for (a, b) in [(8, 16), (3, 43)] {
        let m = draw::torus_mesh(a, b, rng);
        let g = Given { counts: [a * b, 2 * a * b, a * b], slices: m };
        let (counts, work) = needs(6, g.counts, 4 * a * b);
        tally.call(6, 1, &g, &exact(counts, work), rng);
    }
}

fn main() {
    let words: Vec<u64> = std::env::args().skip(1).map(|w| w.parse().expect("a number")).collect();
    let [n, seed] = words[..] else { panic!("usage: schemes N SEED") };
    let (mut rng, mut tally) = (Rng(seed), Tally::default());
    for _ in 0..n {
        tally.mesh(&mut rng);
    }
    at_the_limit(&mut tally, &mut rng);
    for ((number, rule), count) in &tally.met {
        match rule {
            0 => println!("answer {number}: {count}"),
            _ => println!("answer {number}, C{rule}: {count}"),
        }
    }
    println!("{} times two calls as one", tally.joined);
    println!("{n} meshes, {} calls, {} differences", tally.calls, tally.differences);
    std::process::exit((tally.differences != 0) as i32);
}
