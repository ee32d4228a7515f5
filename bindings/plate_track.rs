//! The calls of plate_track for Rust: safe functions over slices. include/plate_track.h says what each call does; here the borrow checker sees
//! to what a C caller owes, that a list which a call may write overlaps no other.
//!
//! Take it as a module (`#[path = ".."] mod plate_track;`) or as a crate, in edition 2021 or 2024 (rustc 1.82 or later), and hand `-L native=` the
//! folder of libplate_track.a to rustc.
//!
//! Parameters and their order are those of the header, a list one slice. `reply` has at least REPLY_WORDS words: accepted, its first words are
//! the ones that QUERY_TAKEN and on name. `count` is the present count: one that is too small is not found out.

#![allow(dead_code, clippy::too_many_arguments)]

pub const VERSION: u32 = 2;
pub const GREATEST: u32 = 4294967295;
pub const MOST_VERTICES: usize = 256;
pub const MOST_EDGES: usize = 2048;
pub const GREATEST_WEIGHT: u32 = 65535;
pub const MOST_LANDMARKS: usize = 4;
pub const MOST_CHANGES: usize = 1024;
pub const CHANGE_WORDS: usize = 5;
pub const LONGEST_SCHEDULE: usize = 4096;
pub const MOST_SOURCES: usize = 256;
pub const LONGEST_TEXT: usize = 32782;
pub const PROPERTIES: usize = 5;
pub const REPLY_WORDS: usize = 8;

// properties
pub const TIME: u32 = 1;
pub const HANDOVERS: u32 = 2;
pub const HEADROOM: u32 = 3;
pub const WORST: u32 = 4;
pub const REACH: u32 = 5;

// sides
pub const FORWARD: u32 = 0;
pub const BACKWARD: u32 = 1;

// what becomes of a vertex, in a preview
pub const SAME: u32 = 0;
pub const GAINED: u32 = 1;
pub const LOST: u32 = 2;
pub const MOVED: u32 = 3;

// kinds of change
pub const INSERT: u32 = 1;
pub const DELETE: u32 = 2;
pub const UPDATE: u32 = 3;

// refusals
pub const ACCEPTED: u32 = 0;
pub const SIZE: u32 = 1;
pub const SHORT: u32 = 2;
pub const LANDMARKS: u32 = 3;
pub const TABLE: u32 = 4;
pub const PROPERTY: u32 = 5;
pub const VERTEX: u32 = 6;
pub const KIND: u32 = 7;
pub const LOOP: u32 = 8;
pub const WEIGHT: u32 = 9;
pub const PRESENT: u32 = 10;
pub const ABSENT: u32 = 11;
pub const FULL: u32 = 12;
pub const UNSETTLED: u32 = 13;
pub const TEXT: u32 = 14;
pub const NO_ROUTE: u32 = 15;

/// The word of each refusal number; in parentheses document 01's, where it is another.
pub const WORDS: [&str; 16] = [
    "accepted",
    "size",
    "short",
    "landmarks (posts)",
    "table",
    "property",
    "vertex (station)",
    "kind",
    "loop",
    "weight (figure)",
    "present",
    "absent",
    "full",
    "unsettled (restless)",
    "text",
    "no route",
];

// the words of each reply, by place in `reply`
pub const PLACE: usize = 0;
pub const QUERY_TAKEN: usize = 0;
pub const QUERY_ROUNDS: usize = 1;
pub const QUERY_STORES: usize = 2;
pub const BATCH_COUNT: usize = 0;
pub const BATCH_AFFECTED: usize = 1;
pub const BATCH_STORES: usize = 2;
pub const SETTLED_ALL: usize = 0;
pub const SETTLED_SIDE: usize = 1;
pub const SETTLED_ROW: usize = 2;
pub const SETTLED_RECORD: usize = 3;
pub const CHOOSE_COUNT: usize = 0;
pub const CHOOSE_FIRST: usize = 1;
pub const ROW_START: usize = 0;
pub const READ_VERTICES: usize = 0;
pub const READ_COUNT: usize = 1;
pub const WRITE_LENGTH: usize = 0;
pub const READ_SOURCES_COUNT: usize = 0;
pub const ROUTE_VERTICES: usize = 0;
pub const DIGEST_GAINED: usize = 0;
pub const DIGEST_LOST: usize = 1;
pub const DIGEST_BETTER: usize = 2;
pub const DIGEST_WORSE: usize = 3;
pub const DIGEST_MOST: usize = 4;

/// The word that stands where there is no route, for a property of 1 to 5.
pub const fn no_route(property: u32) -> u32 {
    if property == HEADROOM || property == REACH { 0 } else { GREATEST }
}

/// The least length of each row list.
pub const fn row_words(landmarks: usize, n: usize) -> usize {
    landmarks * PROPERTIES * n
}

/// A call was refused: nothing that was lent has changed but the first word of the reply, the place.
#[derive(Clone, Copy, Debug, PartialEq, Eq)]
pub struct Refused {
    pub number: u32,
    pub place: u64,
}

impl Refused {
    pub fn word(&self) -> &'static str {
        WORDS.get(self.number as usize).copied().unwrap_or("unknown")
    }
}

impl std::fmt::Display for Refused {
    fn fmt(&self, f: &mut std::fmt::Formatter<'_>) -> std::fmt::Result {
        write!(f, "refused {}, {}, at {}", self.number, self.word(), self.place)
    }
}

impl std::error::Error for Refused {}

/// A reply list that is too short has no place.
fn judged(number: u32, reply: &[u64]) -> Result<(), Refused> {
    match number {
        ACCEPTED => Ok(()),
        _ => Err(Refused { number, place: if reply.len() < REPLY_WORDS { 0 } else { reply[PLACE] } }),
    }
}

/// An empty list is lent by null, as the header has it.
fn at<T>(list: &[T]) -> *const T {
    if list.is_empty() { std::ptr::null() } else { list.as_ptr() }
}

fn at_mut<T>(list: &mut [T]) -> *mut T {
    if list.is_empty() { std::ptr::null_mut() } else { list.as_mut_ptr() }
}

// Sound: below, each pointer goes with the length of its own slice, and lists that are written come from `&mut` slices.
#[link(name = "plate_track", kind = "static")]
unsafe extern "C" {
    fn plate_track_version() -> u32;
    fn plate_track_open(
        n: u32, landmarks: *const u32, landmarks_len: usize, tails: *const u32, tails_len: usize, heads: *const u32, heads_len: usize,
        weights: *const u32, weights_len: usize, count: u32, forward: *mut u32, forward_len: usize, backward: *mut u32,
        backward_len: usize, reply: *mut u64, reply_len: usize,
    ) -> u32;
    fn plate_track_query(
        n: u32, landmarks: *const u32, landmarks_len: usize, tails: *const u32, tails_len: usize, heads: *const u32, heads_len: usize,
        weights: *const u32, weights_len: usize, count: u32, forward: *const u32, forward_len: usize, backward: *const u32,
        backward_len: usize, property: u32, source: u32, schedule: *const u32, schedule_len: usize, starts: *mut u32,
        starts_len: usize, settled: *mut u32, settled_len: usize, reply: *mut u64, reply_len: usize,
    ) -> u32;
    fn plate_track_batch_v2(
        n: u32, landmarks: *const u32, landmarks_len: usize, tails: *mut u32, tails_len: usize, heads: *mut u32, heads_len: usize,
        weights: *mut u32, weights_len: usize, count: u32, forward: *mut u32, forward_len: usize, backward: *mut u32,
        backward_len: usize, changes: *const [u32; 5], changes_len: usize, reply: *mut u64, reply_len: usize,
    ) -> u32;
    fn plate_track_settled(
        n: u32, landmarks: *const u32, landmarks_len: usize, tails: *const u32, tails_len: usize, heads: *const u32, heads_len: usize,
        weights: *const u32, weights_len: usize, count: u32, forward: *const u32, forward_len: usize, backward: *const u32,
        backward_len: usize, reply: *mut u64, reply_len: usize,
    ) -> u32;
    fn plate_track_choose(
        n: u32, tails: *const u32, tails_len: usize, heads: *const u32, heads_len: usize, weights: *const u32, weights_len: usize,
        count: u32, k: u32, reply: *mut u64, reply_len: usize,
    ) -> u32;
    fn plate_track_row(
        n: u32, landmarks: *const u32, landmarks_len: usize, forward: *const u32, forward_len: usize, backward: *const u32,
        backward_len: usize, side: u32, landmark: u32, property: u32, reply: *mut u64, reply_len: usize,
    ) -> u32;
    fn plate_track_read(
        text: *const u8, text_len: usize, tails: *mut u32, tails_len: usize, heads: *mut u32, heads_len: usize, weights: *mut u32,
        weights_len: usize, reply: *mut u64, reply_len: usize,
    ) -> u32;
    fn plate_track_write(
        n: u32, tails: *const u32, tails_len: usize, heads: *const u32, heads_len: usize, weights: *const u32, weights_len: usize,
        count: u32, text: *mut u8, text_len: usize, reply: *mut u64, reply_len: usize,
    ) -> u32;
    fn plate_track_read_sources(
        text: *const u8, text_len: usize, n: u32, sources: *mut u32, sources_len: usize, reply: *mut u64, reply_len: usize,
    ) -> u32;
    fn plate_track_route_v2(
        n: u32, tails: *const u32, tails_len: usize, heads: *const u32, heads_len: usize, weights: *const u32, weights_len: usize,
        count: u32, property: u32, source: u32, target: u32, vertices: *mut u32, vertices_len: usize, marks: *mut u32,
        marks_len: usize, figures: *mut u32, figures_len: usize, reply: *mut u64, reply_len: usize,
    ) -> u32;
    fn plate_track_preview_v2(
        n: u32, landmarks: *const u32, landmarks_len: usize, tails: *const u32, tails_len: usize, heads: *const u32, heads_len: usize,
        weights: *const u32, weights_len: usize, count: u32, forward: *const u32, forward_len: usize, backward: *const u32,
        backward_len: usize, changes: *const [u32; 5], changes_len: usize, property: u32, source: u32, effects: *mut u32,
        effects_len: usize, moves: *mut i64, moves_len: usize, reply: *mut u64, reply_len: usize,
    ) -> u32;
    fn plate_track_digest(
        n: u32, property: u32, effects: *const u32, effects_len: usize, moves: *const i64, moves_len: usize, reply: *mut u64,
        reply_len: usize,
    ) -> u32;
}

/// The version of the archive: VERSION, where this file and the archive belong together.
pub fn version() -> u32 {
    unsafe { plate_track_version() }
}

/// Opens a network: `forward` and `backward` get best values.
pub fn open(
    n: u32, landmarks: &[u32], tails: &[u32], heads: &[u32], weights: &[u32], count: u32, forward: &mut [u32], backward: &mut [u32],
    reply: &mut [u64],
) -> Result<(), Refused> {
    let number = unsafe {
        plate_track_open(
            n, at(landmarks), landmarks.len(), at(tails), tails.len(), at(heads), heads.len(), at(weights), weights.len(), count,
            at_mut(forward), forward.len(), at_mut(backward), backward.len(), at_mut(reply), reply.len(),
        )
    };
    judged(number, reply)
}

/// Asks for a property from a source: `starts` and `settled` get n words each.
pub fn query(
    n: u32, landmarks: &[u32], tails: &[u32], heads: &[u32], weights: &[u32], count: u32, forward: &[u32], backward: &[u32], property: u32,
    source: u32, schedule: &[u32], starts: &mut [u32], settled: &mut [u32], reply: &mut [u64],
) -> Result<(), Refused> {
    let number = unsafe {
        plate_track_query(
            n, at(landmarks), landmarks.len(), at(tails), tails.len(), at(heads), heads.len(), at(weights), weights.len(), count,
            at(forward), forward.len(), at(backward), backward.len(), property, source, at(schedule), schedule.len(),
            at_mut(starts), starts.len(), at_mut(settled), settled.len(), at_mut(reply), reply.len(),
        )
    };
    judged(number, reply)
}

/// Applies changes (kind, tail, head, weight, old) in order, all or none, and brings the rows up to date. A change names one edge by its three words and
/// leaves its twins: INSERT and DELETE the edge tail, head, weight, with old 0; UPDATE gives the edge tail, head, old the weight `weight`. Hand
/// `reply[BATCH_COUNT]` to every later call.
pub fn batch(
    n: u32, landmarks: &[u32], tails: &mut [u32], heads: &mut [u32], weights: &mut [u32], count: u32, forward: &mut [u32],
    backward: &mut [u32], changes: &[[u32; 5]], reply: &mut [u64],
) -> Result<(), Refused> {
    let number = unsafe {
        plate_track_batch_v2(
            n, at(landmarks), landmarks.len(), at_mut(tails), tails.len(), at_mut(heads), heads.len(), at_mut(weights), weights.len(),
            count, at_mut(forward), forward.len(), at_mut(backward), backward.len(), at(changes), changes.len(), at_mut(reply),
            reply.len(),
        )
    };
    judged(number, reply)
}

/// Looks for the first edge that could still better a word of a row.
pub fn settled(
    n: u32, landmarks: &[u32], tails: &[u32], heads: &[u32], weights: &[u32], count: u32, forward: &[u32], backward: &[u32],
    reply: &mut [u64],
) -> Result<(), Refused> {
    let number = unsafe {
        plate_track_settled(
            n, at(landmarks), landmarks.len(), at(tails), tails.len(), at(heads), heads.len(), at(weights), weights.len(), count,
            at(forward), forward.len(), at(backward), backward.len(), at_mut(reply), reply.len(),
        )
    };
    judged(number, reply)
}

/// Chooses k landmarks.
pub fn choose(
    n: u32, tails: &[u32], heads: &[u32], weights: &[u32], count: u32, k: u32, reply: &mut [u64],
) -> Result<(), Refused> {
    let number = unsafe {
        plate_track_choose(
            n, at(tails), tails.len(), at(heads), heads.len(), at(weights), weights.len(), count, k, at_mut(reply), reply.len(),
        )
    };
    judged(number, reply)
}

/// Tells where a row starts in the list of its side.
pub fn row(
    n: u32, landmarks: &[u32], forward: &[u32], backward: &[u32], side: u32, landmark: u32, property: u32, reply: &mut [u64],
) -> Result<(), Refused> {
    let number = unsafe {
        plate_track_row(
            n, at(landmarks), landmarks.len(), at(forward), forward.len(), at(backward), backward.len(), side, landmark, property,
            at_mut(reply), reply.len(),
        )
    };
    judged(number, reply)
}

/// Reads network text into table lists.
pub fn read(
    text: &[u8], tails: &mut [u32], heads: &mut [u32], weights: &mut [u32], reply: &mut [u64],
) -> Result<(), Refused> {
    let number = unsafe {
        plate_track_read(
            at(text), text.len(), at_mut(tails), tails.len(), at_mut(heads), heads.len(), at_mut(weights), weights.len(),
            at_mut(reply), reply.len(),
        )
    };
    judged(number, reply)
}

/// Writes a network's text.
pub fn write(
    n: u32, tails: &[u32], heads: &[u32], weights: &[u32], count: u32, text: &mut [u8], reply: &mut [u64],
) -> Result<(), Refused> {
    let number = unsafe {
        plate_track_write(
            n, at(tails), tails.len(), at(heads), heads.len(), at(weights), weights.len(), count, at_mut(text), text.len(),
            at_mut(reply), reply.len(),
        )
    };
    judged(number, reply)
}

/// Reads a source file of a network with n vertices.
pub fn read_sources(
    text: &[u8], n: u32, sources: &mut [u32], reply: &mut [u64],
) -> Result<(), Refused> {
    let number = unsafe {
        plate_track_read_sources(
            at(text), text.len(), n, at_mut(sources), sources.len(), at_mut(reply), reply.len(),
        )
    };
    judged(number, reply)
}

/// Writes the route behind a value: its vertices from source to target, and for each edge 1 where it set the value and 0 where it passed it on, and its
/// weight: of twins the lowest with which the route keeps its value.
pub fn route(
    n: u32, tails: &[u32], heads: &[u32], weights: &[u32], count: u32, property: u32, source: u32, target: u32, vertices: &mut [u32],
    marks: &mut [u32], figures: &mut [u32], reply: &mut [u64],
) -> Result<(), Refused> {
    let number = unsafe {
        plate_track_route_v2(
            n, at(tails), tails.len(), at(heads), heads.len(), at(weights), weights.len(), count, property, source, target,
            at_mut(vertices), vertices.len(), at_mut(marks), marks.len(), at_mut(figures), figures.len(), at_mut(reply), reply.len(),
        )
    };
    judged(number, reply)
}

/// Shows what a batch would do to a property from a source: `effects` gets SAME, GAINED, LOST or MOVED for each vertex, `moves` after minus before where
/// there is a route before and after, else 0.
pub fn preview(
    n: u32, landmarks: &[u32], tails: &[u32], heads: &[u32], weights: &[u32], count: u32, forward: &[u32], backward: &[u32],
    changes: &[[u32; 5]], property: u32, source: u32, effects: &mut [u32], moves: &mut [i64], reply: &mut [u64],
) -> Result<(), Refused> {
    let number = unsafe {
        plate_track_preview_v2(
            n, at(landmarks), landmarks.len(), at(tails), tails.len(), at(heads), heads.len(), at(weights), weights.len(), count,
            at(forward), forward.len(), at(backward), backward.len(), at(changes), changes.len(), property, source,
            at_mut(effects), effects.len(), at_mut(moves), moves.len(), at_mut(reply), reply.len(),
        )
    };
    judged(number, reply)
}

/// Sums up a preview: how many vertices gained a route, lost it, got better and got worse, and which one loses most.
pub fn digest(
    n: u32, property: u32, effects: &[u32], moves: &[i64], reply: &mut [u64],
) -> Result<(), Refused> {
    let number = unsafe {
        plate_track_digest(
            n, property, at(effects), effects.len(), at(moves), moves.len(), at_mut(reply), reply.len(),
        )
    };
    judged(number, reply)
}
