//! Networks, batches, schedules and texts, good and damaged, with a leaning to the edges of what is accepted.

use crate::case::{Call, Case};
use crate::random::Random;
use crate::reference::{print_network, Change, Edge, Network, M, MOST_EDGES};

/// A word that often matters.
pub fn odd_word(r: &mut Random) -> u32 {
    match r.below(6) {
        0 => r.pick(&[0, 1, 2, 3, 4, 5, 6, 255, 256, 257]),
        1 => r.pick(&[M, M - 1, M - 2, M - 65_535, M - 65_536, 1 << 31]),
        2 => r.pick(&[65_534, 65_535, 65_536, 65_537, 2_047, 2_048, 2_049]),
        3 => r.below(10),
        4 => r.below(300),
        _ => r.next() as u32,
    }
}

fn vertices(r: &mut Random) -> u32 {
    match r.below(1_000) {
        0..=79 => 1,
        80..=179 => 2,
        180..=899 => 3 + r.below(6),
        900..=989 => 9 + r.below(24),
        // the fewest vertices that can have a full table
        990..=995 => 46,
        996..=997 => 33 + r.below(60),
        998 => 255,
        _ => 256,
    }
}

fn weigher(r: &mut Random) -> Box<dyn Fn(&mut Random) -> u32> {
    match r.below(5) {
        0 => {
            let w = r.pick(&[1, 4, 65_535]);
            Box::new(move |_| w)
        }
        1 => Box::new(|r| r.pick(&[1, 65_535])),
        2 => Box::new(|r| 1 + r.below(4)),
        3 => Box::new(|r| 1 + r.below(20)),
        _ => Box::new(|r| 1 + r.below(65_535)),
    }
}

/// The place of an edge in a list that ascends, or where it would stand.
fn place_of(edges: &[Edge], e: Edge) -> Result<usize, usize> {
    edges.binary_search_by_key(&e.words(), Edge::words)
}

fn is_there(edges: &[Edge], tail: u32, head: u32, weight: u32) -> bool {
    place_of(edges, Edge { tail, head, weight }).is_ok()
}

pub fn has_twins(edges: &[Edge]) -> bool {
    edges.windows(2).any(|two| (two[0].tail, two[0].head) == (two[1].tail, two[1].head))
}

/// Twins for some of the pairs: from one to three times as many records as there are, and on a few vertices a full table of them at times. Where there is no
/// more room another record makes it.
fn add_twins(r: &mut Random, n: u32, edges: &mut Vec<Edge>) {
    let weigh = weigher(r);
    let wanted = match r.below(6) {
        _ if n <= 4 && r.one_in(100) => MOST_EDGES - edges.len() - r.below(2) as usize,
        0 | 1 => 1,
        2 => edges.len() / 5 + 1,
        3 | 4 => edges.len(),
        _ => 3 * edges.len(),
    };
    let (mut made, mut tried) = (0, 0);
    while made < wanted && tried < 8 * wanted {
        tried += 1;
        let e = r.pick(edges);
        let weight = match r.below(3) {
            0 => weigh(r),
            1 => retuned(r, e.weight),
            _ => 1 + r.below(65_535),
        };
        let twin = Edge { weight, ..e };
        if place_of(edges, twin).is_ok() {
            continue;
        }
        if edges.len() >= MOST_EDGES {
            edges.remove(r.below(edges.len() as u32) as usize);
        }
        let at = place_of(edges, twin).unwrap_err();
        edges.insert(at, twin);
        made += 1;
    }
}

/// Edges of a sound table; in a third of them some pairs have twins.
fn edges(r: &mut Random, n: u32) -> Vec<Edge> {
    let weigh = weigher(r);
    let most = (n as usize * (n as usize - 1)).min(MOST_EDGES);
    let wanted = match r.below(8) {
        _ if most == MOST_EDGES && !r.one_in(3) => most,
        0 => 0,
        1 | 2 => most - r.below(2).min(most as u32) as usize,
        3 => r.below(n + 1) as usize,
        4 | 5 => (2 * n as usize).min(most),
        _ => r.below(most as u32 + 1) as usize,
    };
    let wanted = if n > 60 && r.one_in(3) { wanted.min(600) } else { wanted }.min(most);
    let mut pairs = std::collections::BTreeSet::new();
    if r.one_in(3) && n > 1 {
        // a ring
        for v in 0..n {
            if pairs.len() < wanted {
                pairs.insert((v, (v + 1) % n));
            }
        }
    }
    while pairs.len() < wanted {
        if wanted * 2 > n as usize * (n as usize - 1) {
            // dense: leave some out
            let mut all: Vec<(u32, u32)> = (0..n).flat_map(|t| (0..n).map(move |h| (t, h))).filter(|p| p.0 != p.1 && !pairs.contains(p)).collect();
            while pairs.len() < wanted {
                let i = r.below(all.len() as u32) as usize;
                pairs.insert(all.swap_remove(i));
            }
        } else {
            let (t, h) = (r.below(n), r.below(n));
            if t != h {
                pairs.insert((t, h));
            }
        }
    }
    let mut edges: Vec<Edge> = pairs.into_iter().map(|(tail, head)| Edge { tail, head, weight: weigh(r) }).collect();
    if !edges.is_empty() && r.one_in(3) {
        add_twins(r, n, &mut edges);
    }
    edges
}

/// Words to a list's end: past what a call may look at.
fn lengthen(r: &mut Random, list: &mut Vec<u32>, least: usize) {
    let len = least + if r.one_in(3) { r.below(5) as usize } else { 0 };
    let plain = r.one_in(2);
    while list.len() < len {
        list.push(if plain { 0 } else { odd_word(r) });
    }
}

/// Different vertices, in no order.
fn landmarks(r: &mut Random, n: u32, wanted: usize) -> Vec<u32> {
    let mut list = Vec::new();
    while list.len() < wanted {
        let v = r.below(n);
        if !list.contains(&v) {
            list.push(v);
        }
    }
    list
}

/// A network as it is lent before it is opened: its rows hold anything.
fn lent(r: &mut Random, n: u32, edges: &[Edge], landmarks: Vec<u32>) -> Network {
    let mut w = Network { n, count: edges.len() as u32, landmarks, ..Network::default() };
    for e in edges {
        w.tails.push(e.tail);
        w.heads.push(e.head);
        w.weights.push(e.weight);
    }
    lengthen(r, &mut w.tails, MOST_EDGES);
    lengthen(r, &mut w.heads, MOST_EDGES);
    lengthen(r, &mut w.weights, MOST_EDGES);
    let rows = w.landmarks.len() * 5 * n as usize;
    lengthen(r, &mut w.forward, rows);
    lengthen(r, &mut w.backward, rows);
    w
}

/// A sound network of any size.
pub fn network(r: &mut Random) -> Network {
    let n = vertices(r);
    let edges = edges(r, n);
    let wanted = if n > 60 && r.one_in(2) { 1 } else { 1 + r.below(n.min(4)) } as usize;
    let landmarks = landmarks(r, n, wanted);
    lent(r, n, &edges, landmarks)
}

/// 256 vertices, 2,048 edges of weights up to 500, a fifth of them twins, and four landmarks.
pub fn full_network(r: &mut Random) -> Network {
    let mut edges: Vec<Edge> = Vec::new();
    while edges.len() < MOST_EDGES {
        let (tail, head) = match edges.len() {
            k if k > 0 && r.one_in(5) => {
                let e = edges[r.below(k as u32) as usize];
                (e.tail, e.head)
            }
            _ => (r.below(256), r.below(256)),
        };
        let e = Edge { tail, head, weight: 1 + r.below(500) };
        if let (true, Err(at)) = (tail != head, place_of(&edges, e)) {
            edges.insert(at, e);
        }
    }
    let landmarks = landmarks(r, 256, 4);
    lent(r, 256, &edges, landmarks)
}

/// A network whose standing words are anything; of one in three all are near 0 and M, so that a batch can move a word by nearly as much as there is.
pub fn arbitrary_rows(r: &mut Random, w: &mut Network) {
    let near = r.one_in(3);
    for list in [&mut w.forward, &mut w.backward] {
        for x in list {
            *x = match near {
                true if r.one_in(2) => r.below(4),
                true => M - r.below(4),
                false => odd_word(r),
            };
        }
    }
}

// ---- batches

/// A weight for a pair that has one or had: the same, one beside it, better or worse for each property that goes by weights, or any.
fn retuned(r: &mut Random, weight: u32) -> u32 {
    match r.below(8) {
        0 => weight,
        1 => weight.saturating_add(1),
        2 => weight.saturating_sub(1),
        3 => weight.saturating_add(r.below(9)),
        4 => weight.saturating_sub(r.below(9)),
        5 => r.pick(&[1, 4, 65_535]),
        6 => 1 + r.below(20),
        _ => 1 + r.below(65_535),
    }
    .clamp(1, 65_535)
}

/// An edge for a pair that has none with this weight.
fn insertion(r: &mut Random, n: u32, edges: &[Edge]) -> Option<Change> {
    let twin = !edges.is_empty() && r.one_in(if has_twins(edges) { 2 } else { 10 });
    for _ in 0..20 {
        let (t, h, was) = if twin {
            let e = r.pick(edges);
            (e.tail, e.head, e.weight)
        } else {
            (r.below(n), r.below(n), 4)
        };
        let w = match r.below(3) {
            0 if twin => retuned(r, was),
            0 => r.pick(&[1, 4, 65_535]),
            1 => 1 + r.below(20),
            _ => 1 + r.below(65_535),
        };
        let paired = edges.binary_search_by_key(&(t, h), |e| (e.tail, e.head)).is_ok();
        if t != h && paired == twin && !is_there(edges, t, h, w) {
            return Some([1, t, h, w, 0]);
        }
    }
    None
}

/// An update of an edge that is there, to a weight that its pair does not have beside.
fn update(r: &mut Random, edges: &[Edge], e: Edge) -> Change {
    let weight = retuned(r, e.weight);
    [3, e.tail, e.head, if is_there(edges, e.tail, e.head, weight) { e.weight } else { weight }, e.weight]
}

/// A change that is good where the edges are as given: a third of them updates.
fn good_change(r: &mut Random, n: u32, edges: &[Edge]) -> Option<Change> {
    if !edges.is_empty() && r.one_in(3) {
        let e = r.pick(edges);
        return Some(update(r, edges, e));
    }
    if edges.is_empty() || (edges.len() < MOST_EDGES && r.one_in(2)) {
        return insertion(r, n, edges);
    }
    let e = r.pick(edges);
    Some([2, e.tail, e.head, e.weight, 0])
}

/// A change of a pair that is there, with weights that it has and weights that it has not.
fn wrong_weights(r: &mut Random, edges: &[Edge]) -> Change {
    let e = r.pick(edges);
    let (t, h) = (e.tail, e.head);
    let twins: Vec<u32> = edges.iter().filter(|f| (f.tail, f.head) == (t, h)).map(|f| f.weight).collect();
    let lacked = |r: &mut Random| (0..99).map(|_| retuned(r, e.weight)).find(|w| !twins.contains(w)).unwrap_or(65_535);
    let (absent, other) = (lacked(r), lacked(r));
    match r.below(10) {
        // 11, though the pair is there
        0 => [2, t, h, absent, 0],
        1 => [3, t, h, other, absent],
        2 => [3, t, h, absent, absent],
        // 10, with the old weight absent; and with it there, where the pair has another
        3 | 4 => [3, t, h, e.weight, absent],
        5 => [3, t, h, r.pick(&twins), e.weight],
        6 => [1, t, h, e.weight, 0],
        // 9
        7 => [2, t, h, e.weight, r.pick(&[1, e.weight, 65_536])],
        8 => [3, t, h, absent, r.pick(&[0, 65_536, M])],
        _ => [1, t, h, absent, r.pick(&[1, e.weight, 65_536])],
    }
}

fn bad_change(r: &mut Random, n: u32, edges: &[Edge]) -> Change {
    let absent = |&(t, h): &(u32, u32)| t != h && edges.binary_search_by_key(&(t, h), |e| (e.tail, e.head)).is_err();
    if edges.len() >= MOST_EDGES && r.one_in(2) {
        // an insert into a full table: of an edge that is there, of a twin, or of a pair that is not there
        let e = r.pick(edges);
        match r.below(3) {
            0 => return [1, e.tail, e.head, e.weight, 0],
            1 => return [1, e.tail, e.head, retuned(r, e.weight), 0],
            _ => {}
        }
        let (t, h) = (0..2_000).map(|_| (r.below(n), r.below(n))).find(absent).unwrap_or((0, 1));
        return [1, t, h, 1, 0];
    }
    if !edges.is_empty() && r.one_in(3) {
        return wrong_weights(r, edges);
    }
    if r.one_in(6) {
        // an update or a delete of a pair that is not there
        let pair = (0..40).map(|_| (r.below(n), r.below(n))).find(absent);
        if let Some((t, h)) = pair {
            let (w, o) = (1 + r.below(9), 1 + r.below(9));
            return if r.one_in(2) { [3, t, h, w, o] } else { [2, t, h, w, 0] };
        }
    }
    let mut c = match good_change(r, n, edges) {
        Some(c) if r.one_in(2) => c,
        _ => [1 + r.below(3), r.below(n), r.below(n), r.below(4), r.below(3)],
    };
    for _ in 0..1 + r.below(2) {
        let i = r.below(5) as usize;
        c[i] = match i {
            0 => r.pick(&[0, 1, 2, 3, 4, M]),
            1 | 2 => r.pick(&[n, n.wrapping_sub(1), 0, n + 1, M]),
            _ => r.pick(&[0, 1, 65_535, 65_536, M]),
        };
    }
    c
}

/// Makes a change, and says whether it could.
fn patch(edges: &mut Vec<Edge>, c: Change) -> bool {
    let [kind, tail, head, weight, old] = c;
    let at = |w: u32| place_of(edges, Edge { tail, head, weight: w });
    let good = match kind {
        1 => at(weight).is_err() && edges.len() < MOST_EDGES,
        2 => at(weight).is_ok(),
        _ => at(old).is_ok() && (weight == old || at(weight).is_err()),
    };
    if !good {
        return false;
    }
    if let (2 | 3, Ok(i)) = (kind, at(if kind == 3 { old } else { weight })) {
        edges.remove(i);
    }
    let e = Edge { tail, head, weight };
    if let (1 | 3, Err(i)) = (kind, place_of(edges, e)) {
        edges.insert(i, e);
    }
    true
}

/// Another change of the pair that the last one named: one of its edges is updated or goes, or a twin comes.
fn same_pair(r: &mut Random, edges: &[Edge], tail: u32, head: u32, last: u32) -> Change {
    let twins: Vec<Edge> = edges.iter().filter(|e| (e.tail, e.head) == (tail, head)).copied().collect();
    let was = if twins.is_empty() { Edge { tail, head, weight: last } } else { r.pick(&twins) };
    match r.below(3) {
        0 => update(r, edges, was),
        1 => [2, tail, head, was.weight, 0],
        _ => [1, tail, head, retuned(r, was.weight), 0],
    }
}

/// Changes in order, each good against what the earlier ones leave; one bad one among them at times.
pub fn changes(r: &mut Random, w: &Network, bad: bool) -> Vec<Change> {
    let mut edges = w.edges();
    let wanted = match r.below(400) {
        0 => r.pick(&[1_023, 1_024, 1_025]),
        1..=40 => 0,
        41..=180 => 1,
        181..=360 => 2 + r.below(6),
        _ => r.below(40),
    };
    let spoiled = if bad { r.below(wanted + 1) } else { M };
    let mut list = Vec::new();
    for i in 0..=wanted {
        if i == spoiled {
            list.push(bad_change(r, w.n, &edges));
            continue;
        }
        if i == wanted {
            break;
        }
        // the edge that has just gone comes back, as it was or with another weight; one that has just come or been updated is updated or goes
        let last = list.last().copied();
        let c = match last {
            Some([2, t, h, was, _]) if r.one_in(3) => [1, t, h, retuned(r, was), 0],
            Some([1 | 3, t, h, weight, _]) if r.one_in(16) => [2, t, h, weight, 0],
            Some([1 | 3, t, h, weight, _]) if r.one_in(16) => [3, t, h, retuned(r, weight), weight],
            Some([_, t, h, weight, _]) if r.one_in(6) => same_pair(r, &edges, t, h, weight),
            _ => match good_change(r, w.n, &edges) {
                Some(c) => c,
                None => break,
            },
        };
        if patch(&mut edges, c) {
            list.push(c);
        }
    }
    list
}

pub fn schedule(r: &mut Random, n: u32) -> Vec<u32> {
    let len = match r.below(300) {
        0 => r.pick(&[4_095, 4_096, 4_097]),
        1..=150 => 0,
        151..=250 => 1 + r.below(6),
        _ => r.below(40),
    };
    (0..len).map(|_| r.below(n)).collect()
}

// ---- text

fn number(r: &mut Random, good: u64) -> String {
    match r.below(12) {
        0 => r
            .pick(&[
                "0", "00", "07", "+5", "-1", "", "1", "2", "255", "256", "257", "2047", "2048", "2049", "65535", "65536", "4294967295", "4294967296",
                "4294967297", "18446744073709551615", "18446744073709551616", "18446744073709551617", "100000000000000000000000000000", "1 ", "x",
            ])
            .into(),
        _ => good.to_string(),
    }
}

fn shuffle<T>(r: &mut Random, list: &mut [T]) {
    for i in (1..list.len()).rev() {
        list.swap(i, r.below(i as u32 + 1) as usize);
    }
}

fn comment(r: &mut Random) -> Vec<u8> {
    let mut line: Vec<u8> = r.pick(&[&b"c"[..], b"c ", b"c a comment", b"c p sp 1 0", b"c a 1 2 3", b"c  c", b"c \t\r"]).to_vec();
    if r.one_in(4) {
        line = vec![b'c', b' '];
        for _ in 0..r.below(6) {
            line.push(r.pick(&[0, 9, 13, 32, 127, 128, 200, 255]));
        }
    }
    line
}

/// Lines of a text: damaged at times, one of them or the bytes.
fn spoil(r: &mut Random, mut lines: Vec<Vec<u8>>, bad: bool) -> Vec<u8> {
    for _ in 0..r.pick(&[0, 0, 0, 1, 2, 5]) {
        let i = r.below(lines.len() as u32 + 1) as usize;
        lines.insert(i, comment(r));
    }
    let damage = if bad { r.below(12) } else { M };
    let some = |r: &mut Random, lines: &[Vec<u8>]| r.below(lines.len() as u32) as usize;
    if !lines.is_empty() {
        match damage {
            0 => {
                let i = some(r, &lines);
                lines.remove(i);
            }
            1 => {
                let i = some(r, &lines);
                lines.insert(i, lines[i].clone());
            }
            2 => {
                let (i, j) = (some(r, &lines), some(r, &lines));
                lines.swap(i, j);
            }
            3 => {
                let i = some(r, &lines);
                let extra = r.pick(&[&b""[..], b"cc", b"c\t", b"p sp 3 2", b"a 1 2 3", b"s 1", b"p aux sp ss 1", b"a 1 2", b"a 1 2 3 4", b"b", b" ", b"A 1 2 3", b"p max 3 2", b"p sp 1 1", b"p sp 2 3"]);
                lines.insert(i, extra.to_vec());
            }
            4..=6 => {
                // another number in a line
                let i = some(r, &lines);
                let mut parts: Vec<Vec<u8>> = lines[i].split(|&b| b == b' ').map(|p| p.to_vec()).collect();
                let j = r.below(parts.len() as u32) as usize;
                let known = std::str::from_utf8(&parts[j]).ok().and_then(|t| t.parse().ok()).unwrap_or(1u64);
                parts[j] = match r.below(3) {
                    0 => number(r, known + 1).into_bytes(),
                    1 => number(r, known.saturating_sub(1)).into_bytes(),
                    _ => loop {
                        let t = number(r, known);
                        if t != known.to_string() {
                            break t.into_bytes();
                        }
                    },
                };
                lines[i] = parts.join(&b' ');
            }
            7 => {
                let i = some(r, &lines);
                let at = r.below(lines[i].len() as u32 + 1) as usize;
                lines[i].insert(at, r.pick(&[b' ', b'\r', b'\t', b'0', 0, 255, b'a']));
            }
            8 => {
                let i = some(r, &lines);
                lines[i].push(r.pick(&[b' ', b'\r']));
            }
            _ => {}
        }
    }
    let mut text = Vec::new();
    for line in &lines {
        text.extend_from_slice(line);
        text.push(b'\n');
    }
    match damage {
        9 => {
            text.pop();
        }
        10 => text.truncate(r.below(text.len() as u32 + 1) as usize),
        11 => text.extend_from_slice(r.pick(&[&b"c"[..], b"a 1 2 3", b"x", b"\n", b"c \n"])),
        _ => {}
    }
    text
}

pub fn network_text(r: &mut Random, w: &Network, bad: bool) -> Vec<u8> {
    let mut edges = w.edges();
    shuffle(r, &mut edges);
    let text = print_network(w.n, &edges);
    let lines = text.split(|&b| b == b'\n').filter(|l| !l.is_empty()).map(|l| l.to_vec()).collect();
    spoil(r, lines, bad)
}

pub fn source_text(r: &mut Random, n: u32, bad: bool) -> Vec<u8> {
    let count = match r.below(40) {
        0 => r.pick(&[255, 256, 257]),
        1..=8 => 0,
        _ => r.below(6),
    };
    let mut lines = vec![format!("p aux sp ss {count}").into_bytes()];
    for _ in 0..count {
        lines.push(format!("s {}", 1 + r.below(n)).into_bytes());
    }
    spoil(r, lines, bad)
}

// ---- calls

fn out_list(r: &mut Random, least: usize) -> Vec<u32> {
    let len = least + r.pick(&[0, 0, 1, 3]);
    let word = odd_word(r);
    (0..len).map(|i| word.wrapping_add(i as u32)).collect()
}

/// A signed number that often matters.
fn odd_move(r: &mut Random) -> i64 {
    match r.below(5) {
        0 => r.pick(&[i64::MIN, i64::MIN + 1, i64::MAX - 1, i64::MAX]),
        1 => r.pick(&[i64::from(M) - 1, i64::from(M), i64::from(M) + 1, 1 - i64::from(M), -i64::from(M)]),
        2 | 3 => i64::from(r.below(7)) - 3,
        _ => r.next() as i64,
    }
}

fn out_moves(r: &mut Random, least: usize) -> Vec<i64> {
    let len = least + r.pick(&[0, 0, 1, 3]);
    let first = odd_move(r);
    (0..len).map(|i| first.wrapping_add(i as i64)).collect()
}

/// Two lists to digest: such as a preview shows, or any numbers. Half of them have no lost route, so that the moves decide which vertex loses most; and
/// most have few different moves, so that many lose as much.
fn digested(r: &mut Random, n: usize) -> (Vec<u32>, Vec<i64>) {
    let (shown, losing, few) = (r.one_in(2), r.one_in(2), !r.one_in(4));
    let (mut effects, mut moves) = (out_list(r, n), out_moves(r, n));
    for e in &mut effects {
        *e = if shown { r.below(4) } else { r.pick(&[0, 1, 2, 3, 3, 3, 4, M]) };
        if *e == 2 && !losing {
            *e = r.pick(&[0, 1, 3]);
        }
    }
    for (i, by) in moves.iter_mut().enumerate() {
        *by = if few { i64::from(r.below(7)) - 3 } else { odd_move(r) };
        if shown && effects.get(i).is_none_or(|&e| e != 3) {
            *by = 0;
        }
    }
    (effects, moves)
}

/// A call on a network, good as far as the network is.
pub fn case(r: &mut Random, call: Call, w: &Network, bad: bool) -> Case {
    let mut c = Case::new(call, w.clone());
    c.reply = (0..8 + r.pick(&[0, 0, 0, 1, 4])).map(|i| 1_000 + i).collect();
    c.property = 1 + r.below(5);
    let n = w.n.max(1);
    match call {
        Call::Query => {
            c.source = r.below(n);
            c.schedule = schedule(r, n);
            // schedules lean to what waits: the source and its heads
            if !c.schedule.is_empty() && r.one_in(2) {
                c.schedule[0] = c.source;
            }
            c.starts = out_list(r, n as usize);
            c.settled = out_list(r, n as usize);
        }
        Call::Batch => c.changes = changes(r, w, bad),
        Call::Choose => c.k = 1 + r.below(4),
        Call::Row => {
            c.side = r.below(2);
            c.landmark = r.pick(&w.landmarks);
        }
        Call::Read => c.text = network_text(r, w, bad),
        Call::Write => {
            let len = print_network(w.n, &w.edges()).len();
            c.text = vec![b'!'; len + r.pick(&[0, 0, 1, 7])];
            if bad {
                c.text.truncate(r.pick(&[len.saturating_sub(1), 0, len / 2]));
            }
        }
        Call::ReadSources => {
            c.text = source_text(r, n, bad);
            c.sources = out_list(r, 256);
        }
        Call::Route => {
            c.source = r.below(n);
            c.target = if r.one_in(12) { c.source } else { r.below(n) };
            c.vertices = out_list(r, n as usize);
            c.marks = out_list(r, n as usize);
            c.figures = out_list(r, n as usize);
        }
        Call::Preview => {
            c.changes = changes(r, w, bad);
            c.source = r.below(n);
            c.effects = out_list(r, n as usize);
            c.moves = out_moves(r, n as usize);
        }
        Call::Digest => (c.effects, c.moves) = digested(r, n as usize),
        Call::Open | Call::Settled => {}
    }
    c
}

fn shorten<T>(r: &mut Random, list: &mut Vec<T>, least: usize) {
    let len = r.pick(&[least.saturating_sub(1), 0, least / 2, least.saturating_sub(5)]);
    list.truncate(len);
}

fn spoil_record(r: &mut Random, w: &mut Network) {
    let count = (w.count as usize).min(w.tails.len()).min(w.heads.len()).min(w.weights.len());
    if count == 0 {
        return;
    }
    let i = r.below(count as u32) as usize;
    match r.below(12) {
        0 => w.weights[i] = r.pick(&[0, 65_536, M]),
        1 => w.tails[i] = r.pick(&[w.n, M, 0]),
        2 => w.heads[i] = r.pick(&[w.n, M, 0]),
        3 => w.heads[i] = w.tails[i],
        4 | 5 if i > 0 => {
            w.tails.swap(i, i - 1);
            w.heads.swap(i, i - 1);
        }
        // one pair for two records: twins in order or out of it, or the same three words
        6..=8 if i > 0 => {
            w.tails[i] = w.tails[i - 1];
            w.heads[i] = w.heads[i - 1];
            let was = w.weights[i - 1];
            w.weights[i] = r.pick(&[w.weights[i], was, was.wrapping_add(1), was.wrapping_sub(1)]);
        }
        9 | 10 if i > 0 => w.weights.swap(i, i - 1),
        _ => w.tails.swap(0, i),
    }
}

/// One or more things wrong with what a call takes, or only odd.
pub fn damage(r: &mut Random, c: &mut Case) {
    for _ in 0..r.pick(&[1, 1, 1, 2, 3]) {
        let (n, k) = (c.network.n, c.network.landmarks.len());
        let rows = (k * 5).saturating_mul(n as usize).min(6_000);
        match r.below(21) {
            0 => c.network.n = r.pick(&[0, 257, M, n.wrapping_add(1), n.wrapping_sub(1), 256, 1]),
            1 => {
                let list = match r.below(3) {
                    0 => &mut c.network.tails,
                    1 => &mut c.network.heads,
                    _ => &mut c.network.weights,
                };
                shorten(r, list, MOST_EDGES);
            }
            2 => shorten(r, &mut c.network.forward, rows),
            3 => shorten(r, &mut c.network.backward, rows),
            4 => match r.below(6) {
                0 => c.network.landmarks.clear(),
                1 if k > 0 => c.network.landmarks.push(c.network.landmarks[0]),
                2 => c.network.landmarks.push(r.pick(&[0, n, M, 1])),
                3 => c.network.landmarks = vec![0, 1, 2, 3, 4],
                4 if k > 0 => c.network.landmarks[k - 1] = r.pick(&[n, M, n.wrapping_add(1)]),
                _ => {
                    // one more, with rows for it
                    c.network.landmarks.push(r.below(n.max(1)));
                    let len = (rows + 5 * n as usize).min(8_000);
                    c.network.forward.resize(len, 3);
                    c.network.backward.resize(len, 3);
                }
            },
            5 => c.network.count = r.pick(&[2_049, M, c.network.count.wrapping_add(1), c.network.count.wrapping_sub(1), 65_536, 2_048]),
            6 | 7 => spoil_record(r, &mut c.network),
            8 => c.property = r.pick(&[0, 6, M, 5, 1]),
            9 => c.source = r.pick(&[n, M, n.wrapping_sub(1), 0]),
            10 => {
                if !c.schedule.is_empty() {
                    let i = r.below(c.schedule.len() as u32) as usize;
                    c.schedule[i] = r.pick(&[n, M, n.wrapping_add(1)]);
                } else {
                    c.schedule = vec![0; r.pick(&[1, 4_096, 4_097])];
                }
            }
            11 => {
                let least = n.min(300) as usize;
                if r.one_in(2) {
                    shorten(r, &mut c.starts, least);
                } else {
                    shorten(r, &mut c.settled, least);
                }
            }
            12 => c.changes = vec![[r.pick(&[1, 2, 3]), 0, 1, r.pick(&[0, 4]), r.pick(&[0, 4])]; r.pick(&[1_024, 1_025, 1_100])],
            13 => c.reply.truncate(r.below(8) as usize),
            14 => c.k = r.pick(&[0, 5, M, 4]),
            15 => {
                if r.one_in(2) {
                    c.side = r.pick(&[2, M, 1]);
                } else {
                    c.landmark = r.pick(&[n, M, 0, n.wrapping_sub(1)]);
                }
            }
            16 => c.target = r.pick(&[n, M, n.wrapping_sub(1), 0]),
            17 => {
                let least = n.min(300) as usize;
                match r.below(3) {
                    0 => shorten(r, &mut c.vertices, least),
                    1 => shorten(r, &mut c.marks, least),
                    _ => shorten(r, &mut c.figures, least),
                }
            }
            18 => {
                let least = n.min(300) as usize;
                if r.one_in(2) {
                    shorten(r, &mut c.effects, least);
                } else {
                    shorten(r, &mut c.moves, least);
                }
            }
            19 => {
                // a bad change beside a source that may be bad
                c.changes.insert(0, [r.pick(&[0, 4, 9]), 0, n.wrapping_sub(1).min(1), 4, 0]);
                c.source = r.pick(&[n, M, 0]);
            }
            _ => shorten(r, &mut c.sources, 256),
        }
    }
}
