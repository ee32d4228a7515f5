//! bindings/plate_track.rs: what it gives beside the calls, and a refusal as Rust has it. The expected words are documents 01's and 02's, or follow
//! from 01 and from 02, One, Two, Four and Five, by hand. The calls themselves are held to a reference by tests/differential. tests/rust/run runs it.

#[path = "../../bindings/plate_track.rs"]
mod plate_track;

use plate_track::*;

const DECK_A: &[u8] = b"p sp 4 5\na 1 2 4\na 1 4 9\na 2 3 4\na 3 2 4\na 4 3 2\n";

#[test]
fn archive_and_file_have_one_version() {
    assert_eq!(version(), VERSION);
}

#[test]
fn words_of_rows_and_routes() {
    assert_eq!([TIME, HANDOVERS, HEADROOM, WORST, REACH].map(no_route), [GREATEST, GREATEST, 0, GREATEST, 0]);
    assert_eq!((row_words(2, 3), row_words(MOST_LANDMARKS, MOST_VERTICES)), (30, 5120));
}

#[test]
fn a_refusal_has_number_word_and_place() {
    let (mut tails, mut heads, mut weights, mut reply) = ([7; MOST_EDGES], [7; MOST_EDGES], [7; MOST_EDGES], [7; REPLY_WORDS]);
    let refused = read(b"p sp 4 1\na 1 5 3\n", &mut tails, &mut heads, &mut weights, &mut reply).unwrap_err();
    assert_eq!((refused.number, refused.word(), refused.place), (TEXT, "text", 2));
    assert_eq!(refused.to_string(), "refused 14, text, at 2");
    assert_eq!((tails, reply), ([7; MOST_EDGES], [2, 7, 7, 7, 7, 7, 7, 7]));
    assert_eq!(Refused { number: 99, place: 0 }.word(), "unknown");
}

#[test]
fn a_short_reply_has_no_place() {
    let mut reply = [7; REPLY_WORDS - 1];
    assert_eq!(read(b"", &mut [], &mut [], &mut [], &mut reply), Err(Refused { number: SHORT, place: 0 }));
    assert_eq!(reply, [7; REPLY_WORDS - 1]);
}

/// Insert, then ask with the count that the batch told: M 6 2 0. An update from 2 to 3 keeps the count: M 7 3 0.
#[test]
fn a_batch_tells_the_count() {
    let (mut tails, mut heads, mut weights, mut reply) = ([0; MOST_EDGES], [0; MOST_EDGES], [0; MOST_EDGES], [0; REPLY_WORDS]);
    let (mut forward, mut backward, mut starts, mut settled) = ([0; 20], [0; 20], [0; 4], [0; 4]);
    read(b"p sp 4 4\na 1 2 4\na 1 4 9\na 2 3 4\na 3 2 4\n", &mut tails, &mut heads, &mut weights, &mut reply).unwrap();
    let count = reply[READ_COUNT] as u32;
    open(4, &[0], &tails, &heads, &weights, count, &mut forward, &mut backward, &mut reply).unwrap();
    let insert = [[INSERT, 3, 2, 2, 0]];
    batch(4, &[0], &mut tails, &mut heads, &mut weights, count, &mut forward, &mut backward, &insert, &mut reply).unwrap();
    let count = reply[BATCH_COUNT] as u32;
    query(4, &[0], &tails, &heads, &weights, count, &forward, &backward, TIME, 3, &[], &mut starts, &mut settled, &mut reply).unwrap();
    assert_eq!((count, settled), (5, [GREATEST, 6, 2, 0]));
    let update = [[UPDATE, 3, 2, 3, 2]];
    batch(4, &[0], &mut tails, &mut heads, &mut weights, count, &mut forward, &mut backward, &update, &mut reply).unwrap();
    assert_eq!((reply[BATCH_COUNT], weights[4]), (5, 3));
    query(4, &[0], &tails, &heads, &weights, count, &forward, &backward, TIME, 3, &[], &mut starts, &mut settled, &mut reply).unwrap();
    assert_eq!(settled, [GREATEST, 7, 3, 0]);
    let absent = [[UPDATE, 3, 2, 2, 3], [UPDATE, 2, 3, 2, 3]];
    let refused = batch(4, &[0], &mut tails, &mut heads, &mut weights, count, &mut forward, &mut backward, &absent, &mut reply);
    assert_eq!((refused, weights[4]), (Err(Refused { number: ABSENT, place: 1 }), 3));
}

/// Deck A, and Deck A without 0->1: vertices, marks and figures by property, words past them as they were.
#[test]
fn a_route_has_vertices_marks_and_figures() {
    let (mut tails, mut heads, mut weights, mut reply) = ([0; MOST_EDGES], [0; MOST_EDGES], [0; MOST_EDGES], [0; REPLY_WORDS]);
    read(DECK_A, &mut tails, &mut heads, &mut weights, &mut reply).unwrap();
    for (property, wanted) in [(TIME, [1, 1]), (HANDOVERS, [1, 1]), (HEADROOM, [1, 0]), (WORST, [1, 0]), (REACH, [0, 0])] {
        let (mut vertices, mut marks, mut figures) = ([7; 5], [7; 5], [7; 5]);
        route(4, &tails, &heads, &weights, 5, property, 0, 2, &mut vertices, &mut marks, &mut figures, &mut reply).unwrap();
        assert_eq!((reply[ROUTE_VERTICES], vertices, marks), (3, [0, 1, 2, 7, 7], [wanted[0], wanted[1], 7, 7, 7]));
        assert_eq!(figures, [4, 4, 7, 7, 7]);
    }
    read(b"p sp 4 4\na 1 4 9\na 2 3 4\na 3 2 4\na 4 3 2\n", &mut tails, &mut heads, &mut weights, &mut reply).unwrap();
    let marks_to_1 = [(TIME, [1, 1, 1]), (HANDOVERS, [1, 1, 1]), (HEADROOM, [1, 1, 0]), (WORST, [1, 0, 0]), (REACH, [0, 0, 0])];
    for (property, wanted) in marks_to_1 {
        let (mut vertices, mut marks, mut figures) = ([7; 4], [7; 4], [7; 4]);
        route(4, &tails, &heads, &weights, 4, property, 0, 1, &mut vertices, &mut marks, &mut figures, &mut reply).unwrap();
        assert_eq!((reply[ROUTE_VERTICES], vertices, marks), (4, [0, 3, 2, 1], [wanted[0], wanted[1], wanted[2], 7]));
        assert_eq!(figures, [9, 2, 4, 7]);
    }
}

/// Deck A with 0->1 of 3, 5 and 9: to 1 the values are 3, 1, 9, 3, 1, and to 2, over 1, they are 7, 2, 4, 4, 1. For headroom 1->2 of 4 sets it, and 5 is
/// the lowest figure of 0->1 that is no less.
#[test]
fn a_route_names_the_twin() {
    let (mut tails, mut heads, mut weights, mut reply) = ([0; MOST_EDGES], [0; MOST_EDGES], [0; MOST_EDGES], [0; REPLY_WORDS]);
    let text = b"p sp 4 7\na 1 2 9\na 1 2 3\na 1 4 9\na 2 3 4\na 1 2 5\na 3 2 4\na 4 3 2\n";
    read(text, &mut tails, &mut heads, &mut weights, &mut reply).unwrap();
    assert_eq!((reply[READ_COUNT], &weights[..4]), (7, &[3, 5, 9, 9][..]));
    for (property, to_1, to_2, mark) in [(TIME, 3, 3, 1), (HANDOVERS, 3, 3, 1), (HEADROOM, 9, 5, 1), (WORST, 3, 3, 1), (REACH, 3, 3, 0)] {
        let (mut vertices, mut marks, mut figures) = ([7; 4], [7; 4], [7; 4]);
        route(4, &tails, &heads, &weights, 7, property, 0, 1, &mut vertices, &mut marks, &mut figures, &mut reply).unwrap();
        assert_eq!((vertices, marks, figures), ([0, 1, 7, 7], [mark, 7, 7, 7], [to_1, 7, 7, 7]));
        route(4, &tails, &heads, &weights, 7, property, 0, 2, &mut vertices, &mut marks, &mut figures, &mut reply).unwrap();
        assert_eq!((vertices, marks, figures), ([0, 1, 2, 7], [mark, mark, 7, 7], [to_2, 4, 7, 7]));
    }
}

#[test]
fn a_route_is_refused() {
    let (mut tails, mut heads, mut weights, mut reply) = ([0; MOST_EDGES], [0; MOST_EDGES], [0; MOST_EDGES], [7; REPLY_WORDS]);
    read(DECK_A, &mut tails, &mut heads, &mut weights, &mut reply).unwrap();
    let (mut vertices, mut marks, mut figures) = ([7; 4], [7; 4], [7; 4]);
    let mut to = |target, words: [usize; 3]| {
        let lists = (&mut vertices[..words[0]], &mut marks[..words[1]], &mut figures[..words[2]]);
        route(4, &tails, &heads, &weights, 5, TIME, 3, target, lists.0, lists.1, lists.2, &mut reply)
    };
    let refused = to(0, [4; 3]).unwrap_err();
    assert_eq!((refused.number, refused.place, refused.to_string().as_str()), (NO_ROUTE, 0, "refused 15, no route, at 0"));
    assert_eq!(to(4, [4; 3]), Err(Refused { number: VERTEX, place: 0 }));
    for words in [[3, 4, 4], [4, 3, 4], [4, 4, 3], [0, 4, 4], [4, 0, 4], [4, 4, 0]] {
        assert_eq!(to(2, words), Err(Refused { number: SHORT, place: 0 }));
    }
    assert_eq!((vertices, marks, figures), ([7; 4], [7; 4], [7; 4]));
}

/// A network with landmark 0: its table and present count, its rows, and a reply list.
struct Opened {
    n: u32,
    count: u32,
    tails: [u32; MOST_EDGES],
    heads: [u32; MOST_EDGES],
    weights: [u32; MOST_EDGES],
    forward: [u32; 20],
    backward: [u32; 20],
    reply: [u64; REPLY_WORDS],
}

fn opened(text: &[u8]) -> Opened {
    let mut o = Opened {
        n: 0, count: 0, tails: [0; MOST_EDGES], heads: [0; MOST_EDGES], weights: [0; MOST_EDGES], forward: [0; 20], backward: [0; 20], reply: [7; REPLY_WORDS],
    };
    read(text, &mut o.tails, &mut o.heads, &mut o.weights, &mut o.reply).unwrap();
    (o.n, o.count) = (o.reply[READ_VERTICES] as u32, o.reply[READ_COUNT] as u32);
    open(o.n, &[0], &o.tails, &o.heads, &o.weights, o.count, &mut o.forward, &mut o.backward, &mut o.reply).unwrap();
    o
}

/// The report of a batch on a network as it is opened: count, affected, stores.
fn batched(text: &[u8], changes: &[[u32; 5]]) -> Result<[u64; 3], Refused> {
    let mut o = opened(text);
    batch(o.n, &[0], &mut o.tails, &mut o.heads, &mut o.weights, o.count, &mut o.forward, &mut o.backward, changes, &mut o.reply)?;
    Ok([BATCH_COUNT, BATCH_AFFECTED, BATCH_STORES].map(|i| o.reply[i]))
}

/// Each change names one edge by its three words. tests/deck says how each line follows.
#[test]
fn a_change_names_the_twin() {
    assert_eq!([[0u32; 5]; 2].as_flattened().len(), 2 * CHANGE_WORDS);
    let two_tracks = b"p sp 3 3\na 1 2 2\na 1 2 9\na 2 3 5\n";
    let refused = |number, place| Err(Refused { number, place });
    for (changes, due) in [
        (&[[DELETE, 0, 1, 4, 0]][..], Ok([4, 10, 10])),
        (&[[DELETE, 0, 1, 5, 0]], refused(ABSENT, 0)),
        (&[[DELETE, 0, 1, 0, 0]], refused(WEIGHT, 0)),
        (&[[DELETE, 0, 1, 4, 4]], refused(WEIGHT, 0)),
        (&[[INSERT, 0, 1, 7, 0]], Ok([6, 0, 1])),
        (&[[INSERT, 0, 1, 4, 0]], refused(PRESENT, 0)),
        (&[[INSERT, 0, 1, 7, 7]], refused(WEIGHT, 0)),
        (&[[UPDATE, 0, 1, 7, 4]], Ok([5, 4, 5])),
        (&[[UPDATE, 0, 1, 7, 0]], refused(WEIGHT, 0)),
        (&[[UPDATE, 0, 1, 4, 4]], Ok([5, 0, 0])),
        (&[[UPDATE, 0, 1, 5, 5]], refused(ABSENT, 0)),
        (&[[UPDATE, 0, 1, 4, 5]], refused(PRESENT, 0)),
        (&[[INSERT, 0, 1, 7, 0], [UPDATE, 0, 1, 7, 4]], refused(PRESENT, 1)),
        (&[[INSERT, 0, 1, 7, 0], [UPDATE, 0, 1, 7, 9]], refused(PRESENT, 1)),
        (&[[INSERT, 0, 1, 7, 0], [DELETE, 0, 1, 4, 0]], Ok([5, 4, 5])),
        (&[[INSERT, 0, 1, 3, 0], [UPDATE, 0, 1, 9, 4]], Ok([6, 10, 11])),
    ] {
        assert_eq!(batched(DECK_A, changes), due, "{changes:?}");
    }
    assert_eq!(batched(two_tracks, &[[UPDATE, 0, 1, 1, 2], [UPDATE, 0, 1, 8, 9]]), Ok([3, 10, 11]));
    assert_eq!(batched(two_tracks, &[[DELETE, 0, 1, 9, 0]]), Ok([2, 6, 6]));
}

/// Twins are good text, and the same line twice is not.
#[test]
fn a_text_has_twins() {
    let (mut tails, mut heads, mut weights, mut reply) = ([0; MOST_EDGES], [0; MOST_EDGES], [0; MOST_EDGES], [0; REPLY_WORDS]);
    let mut said = |text: &[u8]| read(text, &mut tails, &mut heads, &mut weights, &mut reply).map(|()| reply[READ_COUNT]);
    assert_eq!(said(b"p sp 2 3\na 1 2 6\na 1 2 5\na 2 1 5\n"), Ok(3));
    assert_eq!(said(b"p sp 2 3\na 1 2 5\na 1 2 6\na 1 2 5\n"), Err(Refused { number: TEXT, place: 4 }));
    assert_eq!(said(b"p sp 1 1\n"), Err(Refused { number: TEXT, place: 1 }));
}

/// Changes, property and source; effects, moves and the digest.
type Foreseen<'a> = (&'a [[u32; 5]], u32, u32, [u32; 4], [i64; 4], [u64; 5]);

/// Best values of Deck A from 0: time 0 4 8 9, handovers 0 1 2 1, headroom M 4 4 9, worst 0 4 4 9, reach 1 1 1 1; from 3: time M 6 2 0.
/// Without 0->1: 0 15 11 9, 0 3 2 1, M 2 2 9, 0 9 9 9, 1 1 1 1. Without 3->2, from 3: M M M 0; with 3->0 5: 5 6 2 0. With 0->1 set to 3: time 0 3 7 9,
/// headroom M 3 3 9. With 0->1 of 7 beside that of 4: headroom M 7 4 9, time as before. Without 0->3 and with 0->1 set to 6: time 0 6 10 M. Entries past n
/// are as they were.
#[test]
fn a_preview_has_effects_and_moves() {
    let mut o = opened(DECK_A);
    let (take, cut, join, faster) = ([[DELETE, 0, 1, 4, 0]], [[DELETE, 3, 2, 2, 0]], [[INSERT, 3, 0, 5, 0]], [[UPDATE, 0, 1, 3, 4]]);
    let (worse, taller) = ([[DELETE, 0, 3, 9, 0], [UPDATE, 0, 1, 6, 4]], [[INSERT, 0, 1, 7, 0]]);
    let wanted: [Foreseen; 13] = [
        (&take, TIME, 0, [SAME, MOVED, MOVED, SAME], [0, 11, 3, 0], [0, 0, 0, 2, 1]),
        (&take, HANDOVERS, 0, [SAME, MOVED, SAME, SAME], [0, 2, 0, 0], [0, 0, 0, 1, 1]),
        (&take, HEADROOM, 0, [SAME, MOVED, MOVED, SAME], [0, -2, -2, 0], [0, 0, 0, 2, 1]),
        (&take, WORST, 0, [SAME, MOVED, MOVED, SAME], [0, 5, 5, 0], [0, 0, 0, 2, 1]),
        (&take, REACH, 0, [SAME; 4], [0; 4], [0, 0, 0, 0, 4]),
        (&cut, TIME, 3, [SAME, LOST, LOST, SAME], [0; 4], [0, 2, 0, 0, 1]),
        (&join, TIME, 3, [GAINED, SAME, SAME, SAME], [0; 4], [1, 0, 0, 0, 4]),
        (&faster, TIME, 0, [SAME, MOVED, MOVED, SAME], [0, -1, -1, 0], [0, 0, 2, 0, 4]),
        (&faster, HEADROOM, 0, [SAME, MOVED, MOVED, SAME], [0, -1, -1, 0], [0, 0, 0, 2, 1]),
        (&worse, TIME, 0, [SAME, MOVED, MOVED, LOST], [0, 2, 2, 0], [0, 1, 0, 2, 3]),
        (&taller, HEADROOM, 0, [SAME, MOVED, SAME, SAME], [0, 3, 0, 0], [0, 0, 1, 0, 4]),
        (&taller, TIME, 0, [SAME; 4], [0; 4], [0, 0, 0, 0, 4]),
        (&[], TIME, 0, [SAME; 4], [0; 4], [0, 0, 0, 0, 4]),
    ];
    for (changes, property, source, effect, move_by, told) in wanted {
        let (mut effects, mut moves) = ([7; 5], [-7; 5]);
        o.reply = [7; REPLY_WORDS];
        preview(
            4, &[0], &o.tails, &o.heads, &o.weights, 5, &o.forward, &o.backward, changes, property, source, &mut effects, &mut moves, &mut o.reply,
        )
        .unwrap();
        assert_eq!((&effects[..4], &moves[..4]), (&effect[..], &move_by[..]));
        assert_eq!((effects[4], moves[4], o.reply), (7, -7, [7; REPLY_WORDS]));
        digest(4, property, &effects, &moves, &mut o.reply).unwrap();
        let places = [DIGEST_GAINED, DIGEST_LOST, DIGEST_BETTER, DIGEST_WORSE, DIGEST_MOST];
        assert_eq!((places.map(|i| o.reply[i]), o.reply[5]), (told, 7));
    }
}

/// Property and source are judged before the changes, and these as a batch judges them.
#[test]
fn a_preview_is_refused() {
    let mut o = opened(DECK_A);
    let (mut effects, mut moves) = ([7; 4], [-7; 4]);
    let mut to = |changes: &[[u32; 5]], property, source, entries: usize| {
        preview(
            4, &[0], &o.tails, &o.heads, &o.weights, 5, &o.forward, &o.backward, changes, property, source, &mut effects, &mut moves[..entries],
            &mut o.reply,
        )
    };
    let twice = [[DELETE, 0, 1, 4, 0]; 2];
    let outside = [[DELETE, 0, 1, 4, 0], [DELETE, 4, 1, 4, 0]];
    assert_eq!(to(&twice, TIME, 0, 4).unwrap_err().to_string(), "refused 11, absent, at 1");
    assert_eq!(to(&[[DELETE, 0, 1, 5, 0]], TIME, 0, 4), Err(Refused { number: ABSENT, place: 0 }));
    assert_eq!(to(&[[UPDATE, 0, 1, 4, 5]], TIME, 0, 4), Err(Refused { number: PRESENT, place: 0 }));
    assert_eq!(to(&outside, TIME, 0, 4), Err(Refused { number: VERTEX, place: 1 }));
    assert_eq!(to(&outside, TIME, 4, 4), Err(Refused { number: VERTEX, place: 0 }));
    assert_eq!(to(&outside, 6, 4, 4), Err(Refused { number: PROPERTY, place: 0 }));
    assert_eq!(to(&outside, 6, 4, 3), Err(Refused { number: SHORT, place: 0 }));
    assert_eq!(to(&outside, 6, 4, 0), Err(Refused { number: SHORT, place: 0 }));
    assert_eq!(to(&[[0; 5]; MOST_CHANGES + 1], 6, 4, 3), Err(Refused { number: SIZE, place: 0 }));
    assert_eq!((effects, moves), ([7; 4], [-7; 4]));
    assert_eq!(digest(4, 6, &effects, &moves, &mut o.reply), Err(Refused { number: PROPERTY, place: 0 }));
    assert_eq!(digest(4, TIME, &effects[..3], &moves, &mut o.reply), Err(Refused { number: SHORT, place: 0 }));
    assert_eq!(digest(257, TIME, &effects, &moves, &mut o.reply), Err(Refused { number: SIZE, place: 0 }));
    assert_eq!(digest(4, TIME, &effects, &moves, &mut o.reply[..7]), Err(Refused { number: SHORT, place: 0 }));
}
