//! A stranger's first program in Rust: the times of Deck A from vertex 0 (document 01: 0 4 8 9), over the installed file; then 0->1 of 7 is added beside that
//! of 4, which the route for headroom names, and 4 is taken: 0 7 11 9.

#[path = "PREFIX/share/plate_track/plate_track.rs"]
mod plate_track;

use plate_track::*;

fn main() -> Result<(), Refused> {
    let (mut tails, mut heads, mut weights, mut reply) = ([0; MOST_EDGES], [0; MOST_EDGES], [0; MOST_EDGES], [0; REPLY_WORDS]);
    let (mut forward, mut backward, mut starts, mut settled) = ([0; 20], [0; 20], [0; 4], [0; 4]);
    let (mut vertices, mut marks, mut figures) = ([0; 4], [0; 4], [0; 4]);
    read(b"p sp 4 5\na 1 2 4\na 1 4 9\na 2 3 4\na 3 2 4\na 4 3 2\n", &mut tails, &mut heads, &mut weights, &mut reply)?;
    open(4, &[0], &tails, &heads, &weights, 5, &mut forward, &mut backward, &mut reply)?;
    query(4, &[0], &tails, &heads, &weights, 5, &forward, &backward, TIME, 0, &[], &mut starts, &mut settled, &mut reply)?;
    assert_eq!(settled, [0, 4, 8, 9]);
    let (add, take) = ([INSERT, 0, 1, 7, 0], [DELETE, 0, 1, 4, 0]);
    batch(4, &[0], &mut tails, &mut heads, &mut weights, 5, &mut forward, &mut backward, &[add], &mut reply)?;
    route(4, &tails, &heads, &weights, 6, HEADROOM, 0, 1, &mut vertices, &mut marks, &mut figures, &mut reply)?;
    assert_eq!((reply[ROUTE_VERTICES], vertices[1], marks[0], figures[0]), (2, 1, 1, 7));
    batch(4, &[0], &mut tails, &mut heads, &mut weights, 6, &mut forward, &mut backward, &[take], &mut reply)?;
    query(4, &[0], &tails, &heads, &weights, 5, &forward, &backward, TIME, 0, &[], &mut starts, &mut settled, &mut reply)?;
    assert_eq!(settled, [0, 7, 11, 9]);
    Ok(())
}
