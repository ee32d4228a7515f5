//! Must not compile: `out` is lent for both lists that a query writes, for two of the three that a route is written to, and for one that a preview
//! reads and one that it writes.

#[path = "../../bindings/plate_track.rs"]
mod plate_track;

fn main() {
    let (mut out, mut reply) = ([0; 4], [0; 8]);
    let _ = plate_track::query(4, &[0], &[], &[], &[], 0, &[], &[], 1, 0, &[], &mut out, &mut out, &mut reply);
    let _ = plate_track::route(4, &[], &[], &[], 0, 1, 0, 0, &mut [0; 4], &mut out, &mut out, &mut reply);
    let _ = plate_track::preview(4, &[0], &out, &[], &[], 0, &[], &[], &[], 1, 0, &mut out, &mut [0; 4], &mut reply);
}
