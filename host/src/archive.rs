//! The archive's functions and the safe calls over them. The one file with `unsafe`.
//!
//! A slice crosses as a pointer and an element count; the reply comes back by value. Nothing checks
//! these declarations against the Rattle source: they repeat the exports of its crate `magicyuv`.

use crate::{Answer, Core, Numbers, Place};

/// The archive's reply: number 0 for planes; kind 0 nothing, 1 a slice, 2 a plane.
#[repr(C)]
#[derive(Clone, Copy)]
struct Reply {
    number: u32,
    kind: u32,
    place: u32,
}

extern "C" {
    fn magicyuv_decode8(
        frame: *const u8,
        frame_count: usize,
        lengths: *const u8,
        lengths_count: usize,
        planes: *mut u8,
        planes_count: usize,
        workspace: *mut u32,
        workspace_count: usize,
        width: u32,
        height: u32,
        slice_height: u32,
        family: u32,
        sx: u32,
        sy: u32,
        depth: u32,
        interlaced: u32,
    ) -> Reply;
    fn magicyuv_decode16(
        frame: *const u8,
        frame_count: usize,
        lengths: *const u8,
        lengths_count: usize,
        planes: *mut u16,
        planes_count: usize,
        workspace: *mut u32,
        workspace_count: usize,
        width: u32,
        height: u32,
        slice_height: u32,
        family: u32,
        sx: u32,
        sy: u32,
        depth: u32,
        interlaced: u32,
    ) -> Reply;
    fn magicyuv_build(
        lengths: *const u8,
        lengths_count: usize,
        workspace: *mut u32,
        workspace_count: usize,
    ) -> Reply;
    fn magicyuv_read(
        lengths: *const u8,
        lengths_count: usize,
        payload: *const u8,
        payload_count: usize,
        workspace: *mut u32,
        workspace_count: usize,
        samples: *mut u16,
        samples_count: usize,
    ) -> Reply;
}

/// The reply as a typed answer. A reply outside the boundary's rules is a broken archive: the proved one
/// gives none.
fn answer(reply: Reply) -> Answer {
    let refused = |place| Answer::Refused { number: reply.number, place };
    match (reply.number, reply.kind, reply.place) {
        (0, 0, 0) => Answer::Planes,
        (1.., 0, 0) => refused(Place::Nothing),
        (1.., 1, slice) => refused(Place::Slice(slice)),
        (1.., 2, plane) => refused(Place::Plane(plane)),
        other => panic!("the archive answered {other:?}, which says nothing"),
    }
}

/// The archive as the four entries.
pub struct Archive;

impl Core for Archive {
    fn decode8(
        &self,
        frame: &[u8],
        lengths: &[u8],
        planes: &mut [u8],
        workspace: &mut [u32],
        n: &Numbers,
    ) -> Answer {
        // SAFETY: each pointer and count is one live slice's, and the two that are written through
        // come from distinct `&mut` slices; the archive is proved to stay within them.
        answer(unsafe {
            magicyuv_decode8(
                frame.as_ptr(),
                frame.len(),
                lengths.as_ptr(),
                lengths.len(),
                planes.as_mut_ptr(),
                planes.len(),
                workspace.as_mut_ptr(),
                workspace.len(),
                n.width,
                n.height,
                n.slice_height,
                n.family,
                n.sx,
                n.sy,
                n.depth,
                n.interlaced,
            )
        })
    }

    fn decode16(
        &self,
        frame: &[u8],
        lengths: &[u8],
        planes: &mut [u16],
        workspace: &mut [u32],
        n: &Numbers,
    ) -> Answer {
        // SAFETY: as in decode8.
        answer(unsafe {
            magicyuv_decode16(
                frame.as_ptr(),
                frame.len(),
                lengths.as_ptr(),
                lengths.len(),
                planes.as_mut_ptr(),
                planes.len(),
                workspace.as_mut_ptr(),
                workspace.len(),
                n.width,
                n.height,
                n.slice_height,
                n.family,
                n.sx,
                n.sy,
                n.depth,
                n.interlaced,
            )
        })
    }

    fn build(&self, lengths: &[u8], workspace: &mut [u32]) -> Answer {
        // SAFETY: as in decode8.
        answer(unsafe {
            magicyuv_build(lengths.as_ptr(), lengths.len(), workspace.as_mut_ptr(), workspace.len())
        })
    }

    fn read(
        &self,
        lengths: &[u8],
        payload: &[u8],
        workspace: &mut [u32],
        samples: &mut [u16],
    ) -> Answer {
        // SAFETY: as in decode8.
        answer(unsafe {
            magicyuv_read(
                lengths.as_ptr(),
                lengths.len(),
                payload.as_ptr(),
                payload.len(),
                workspace.as_mut_ptr(),
                workspace.len(),
                samples.as_mut_ptr(),
                samples.len(),
            )
        })
    }
}
