//! The static library's calls (include/ternaglup.h), each slice a pointer and a length.
use crate::mesh::{Given, Slices};

#[repr(C)]
#[derive(Clone, Copy, Debug, PartialEq)]
pub struct Answer {
    pub number: u32,
    pub values: [u32; 3],
}

#[repr(C)]
#[derive(Clone, Copy, Debug, PartialEq)]
pub struct Subdivided {
    pub answer: Answer,
    pub counts: [usize; 3],
    pub flag: u32,
}

unsafe extern "C" {
    fn ternaglup_catmull(
        passes: u32, update: u32,
        outs: *const u32, outs_length: usize, edges: *const u32, edges_length: usize, faces: *const u32, faces_length: usize,
        vmarks: *const u8, vmarks_length: usize, emarks: *const u8, emarks_length: usize, fmarks: *const u8, fmarks_length: usize,
        points: *const f64, points_length: usize,
        v: usize, e: usize, f: usize,
        new_outs: *mut u32, new_outs_length: usize, new_edges: *mut u32, new_edges_length: usize, new_faces: *mut u32, new_faces_length: usize,
        new_vmarks: *mut u8, new_vmarks_length: usize, new_emarks: *mut u8, new_emarks_length: usize, new_fmarks: *mut u8, new_fmarks_length: usize,
        new_points: *mut f64, new_points_length: usize, work: *mut f64, work_length: usize,
    ) -> Subdivided;
}

/// What is lent for a result. Each slice has GUARD elements more than are lent, so that a store past its end is seen.
#[derive(Clone)]
pub struct Lent {
    pub result: Slices,
    pub work: Vec<f64>,
}

pub const GUARD: usize = 8;

/// The Catmull-Clark call. Each slice of lent is GUARD elements longer than the call is told.
pub fn catmull(passes: u32, update: u32, g: &Given, lent: &mut Lent) -> Subdivided {
    let (s, r, [v, e, f]) = (&g.slices, &mut lent.result, g.counts);
    // Every pointer is valid for the length beside it, and no two of these slices overlap.
    unsafe {
        ternaglup_catmull(
            passes, update,
            s.outs.as_ptr(), s.outs.len(), s.edges.as_ptr(), s.edges.len(), s.faces.as_ptr(), s.faces.len(),
            s.vmarks.as_ptr(), s.vmarks.len(), s.emarks.as_ptr(), s.emarks.len(), s.fmarks.as_ptr(), s.fmarks.len(),
            s.points.as_ptr(), s.points.len(),
            v, e, f,
            r.outs.as_mut_ptr(), r.outs.len() - GUARD, r.edges.as_mut_ptr(), r.edges.len() - GUARD, r.faces.as_mut_ptr(), r.faces.len() - GUARD,
            r.vmarks.as_mut_ptr(), r.vmarks.len() - GUARD, r.emarks.as_mut_ptr(), r.emarks.len() - GUARD, r.fmarks.as_mut_ptr(), r.fmarks.len() - GUARD,
            r.points.as_mut_ptr(), r.points.len() - GUARD, lent.work.as_mut_ptr(), lent.work.len() - GUARD,
        )
    }
}
