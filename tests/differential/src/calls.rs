//! The calls of the archive, through bindings/plate_track.rs, over lists that are exact parts of larger buffers.

use crate::case::{Call, Case};
use crate::plate_track;

/// Elements on both sides of a lent list that no call may touch.
const GUARD: usize = 8;

/// A list in the middle of a buffer.
struct Lent<T> {
    buffer: Vec<T>,
    len: usize,
    guard: T,
}

impl<T: Copy + PartialEq> Lent<T> {
    fn new(list: &[T], guard: T) -> Lent<T> {
        let mut buffer = Vec::with_capacity(list.len() + 2 * GUARD);
        buffer.resize(GUARD, guard);
        buffer.extend_from_slice(list);
        buffer.resize(list.len() + 2 * GUARD, guard);
        Lent { buffer, len: list.len(), guard }
    }

    fn lend(&mut self) -> &mut [T] {
        &mut self.buffer[GUARD..GUARD + self.len]
    }

    fn is_guarded(&self) -> bool {
        self.buffer[..GUARD].iter().chain(&self.buffer[GUARD + self.len..]).all(|&x| x == self.guard)
    }

    fn list(&self) -> &[T] {
        &self.buffer[GUARD..GUARD + self.len]
    }
}

/// Runs the call of a case through the archive: what it returns, and the case with every list as the call left it. An error where
/// something beside the lists was touched.
pub fn call(case: &Case, salt: u32) -> Result<(u32, Case), String> {
    let w = &case.network;
    let mut landmarks = Lent::new(&w.landmarks, salt);
    let mut tails = Lent::new(&w.tails, !salt);
    let mut heads = Lent::new(&w.heads, salt);
    let mut weights = Lent::new(&w.weights, !salt);
    let mut forward = Lent::new(&w.forward, salt);
    let mut backward = Lent::new(&w.backward, !salt);
    let mut schedule = Lent::new(&case.schedule, salt);
    let mut starts = Lent::new(&case.starts, !salt);
    let mut settled = Lent::new(&case.settled, salt);
    let mut changes = Lent::new(&case.changes, [salt, !salt, salt, !salt, salt]);
    let mut text = Lent::new(&case.text, salt as u8);
    let mut sources = Lent::new(&case.sources, salt);
    let mut vertices = Lent::new(&case.vertices, !salt);
    let mut marks = Lent::new(&case.marks, salt);
    let mut figures = Lent::new(&case.figures, !salt);
    let mut effects = Lent::new(&case.effects, !salt);
    let mut moves = Lent::new(&case.moves, -1 - i64::from(salt));
    let mut reply = Lent::new(&case.reply, u64::from(salt) << 20);
    macro_rules! lend {
        ($($list:ident)*) => { $(let $list = $list.lend();)* };
    }
    let answer = {
        let (n, count) = (w.n, w.count);
        lend!(landmarks tails heads weights forward backward schedule starts settled changes text sources vertices marks figures effects moves reply);
        match case.call {
            Call::Open => plate_track::open(n, landmarks, tails, heads, weights, count, forward, backward, reply),
            Call::Query => plate_track::query(
                n, landmarks, tails, heads, weights, count, forward, backward, case.property, case.source, schedule, starts, settled, reply,
            ),
            Call::Batch => plate_track::batch(n, landmarks, tails, heads, weights, count, forward, backward, changes, reply),
            Call::Settled => plate_track::settled(n, landmarks, tails, heads, weights, count, forward, backward, reply),
            Call::Choose => plate_track::choose(n, tails, heads, weights, count, case.k, reply),
            Call::Row => plate_track::row(n, landmarks, forward, backward, case.side, case.landmark, case.property, reply),
            Call::Read => plate_track::read(text, tails, heads, weights, reply),
            Call::Write => plate_track::write(n, tails, heads, weights, count, text, reply),
            Call::ReadSources => plate_track::read_sources(text, n, sources, reply),
            Call::Route => plate_track::route(
                n, tails, heads, weights, count, case.property, case.source, case.target, vertices, marks, figures, reply,
            ),
            Call::Preview => plate_track::preview(
                n, landmarks, tails, heads, weights, count, forward, backward, changes, case.property, case.source, effects, moves, reply,
            ),
            Call::Digest => plate_track::digest(n, case.property, effects, moves, reply),
        }
    };
    let number = answer.err().map_or(plate_track::ACCEPTED, |refused| refused.number);
    macro_rules! guarded {
        ($($list:ident)*) => { $(if !$list.is_guarded() {
            return Err(format!("words beside the list {} were touched", stringify!($list)));
        })* };
    }
    guarded!(landmarks tails heads weights forward backward schedule starts settled changes text sources vertices marks figures effects moves reply);
    let mut after = case.clone();
    after.network.landmarks.copy_from_slice(landmarks.list());
    after.network.tails.copy_from_slice(tails.list());
    after.network.heads.copy_from_slice(heads.list());
    after.network.weights.copy_from_slice(weights.list());
    after.network.forward.copy_from_slice(forward.list());
    after.network.backward.copy_from_slice(backward.list());
    after.schedule.copy_from_slice(schedule.list());
    after.starts.copy_from_slice(starts.list());
    after.settled.copy_from_slice(settled.list());
    after.changes.copy_from_slice(changes.list());
    after.text.copy_from_slice(text.list());
    after.sources.copy_from_slice(sources.list());
    after.vertices.copy_from_slice(vertices.list());
    after.marks.copy_from_slice(marks.list());
    after.figures.copy_from_slice(figures.list());
    after.effects.copy_from_slice(effects.list());
    after.moves.copy_from_slice(moves.list());
    after.reply.copy_from_slice(reply.list());
    Ok((number, after))
}
