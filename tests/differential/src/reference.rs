//! An independent implementation of document 01 with requests One, Two, Four and Five of document 02, written from the documents alone (the digest of a preview, which
//! they don't have, from include/plate_track.h) and for plainness: no bit words, no index beyond a list of edges for each vertex, no scratch that is shared.
//! Each call takes what the call takes and answers number and place, or the words of its reply; what it lends is changed only where it accepts.

pub const M: u32 = 4_294_967_295;
pub const MOST_VERTICES: u32 = 256;
pub const MOST_EDGES: usize = 2_048;
pub const MOST_LANDMARKS: usize = 4;
pub const MOST_CHANGES: usize = 1_024;
pub const LONGEST_SCHEDULE: usize = 4_096;
pub const PROPERTIES: usize = 5;

/// A refusal: its number and its place.
#[derive(Clone, Copy, Debug, PartialEq, Eq)]
pub struct Refusal {
    pub number: u32,
    pub place: u64,
}

pub type Answer<T> = Result<T, Refusal>;

pub fn refuse<T>(number: u32, place: usize) -> Answer<T> {
    Err(Refusal { number, place: place as u64 })
}

#[derive(Clone, Copy, Debug, PartialEq, Eq)]
pub struct Edge {
    pub tail: u32,
    pub head: u32,
    pub weight: u32,
}

impl Edge {
    fn reversed(self) -> Edge {
        Edge { tail: self.head, head: self.tail, weight: self.weight }
    }

    /// "A segment is now its three words: the table ascends by tail, head, figure."
    pub fn words(&self) -> (u32, u32, u32) {
        (self.tail, self.head, self.weight)
    }
}

// ---- the five properties

pub fn source_value(p: u32) -> u32 {
    match p {
        1 | 2 | 4 => 0,
        3 => M,
        _ => 1,
    }
}

pub fn no_route(p: u32) -> u32 {
    match p {
        1 | 2 | 4 => M,
        _ => 0,
    }
}

/// A sum above 4,294,967,294 is M.
fn sum(a: u32, b: u32) -> u32 {
    let s = u64::from(a) + u64::from(b);
    if s > 4_294_967_294 {
        M
    } else {
        s as u32
    }
}

pub fn along(p: u32, value: u32, weight: u32) -> u32 {
    match p {
        1 => sum(value, weight),
        2 => sum(value, 1),
        3 => value.min(weight),
        4 => value.max(weight),
        _ => value,
    }
}

pub fn better(p: u32, a: u32, b: u32) -> bool {
    match p {
        1 | 2 | 4 => a < b,
        _ => a > b,
    }
}

fn join(p: u32, a: u32, b: u32) -> u32 {
    match p {
        1 | 2 => sum(a, b),
        4 => a.max(b),
        _ => a.min(b),
    }
}

// ---- what is lent

/// A network as a caller lends it: real lengths, and words that may be anything.
#[derive(Clone, Debug, Default, PartialEq, Eq)]
pub struct Network {
    pub n: u32,
    pub landmarks: Vec<u32>,
    pub tails: Vec<u32>,
    pub heads: Vec<u32>,
    pub weights: Vec<u32>,
    pub count: u32,
    pub forward: Vec<u32>,
    pub backward: Vec<u32>,
}

impl Network {
    /// The records below the count.
    pub fn edges(&self) -> Vec<Edge> {
        (0..self.count as usize).map(|i| Edge { tail: self.tails[i], head: self.heads[i], weight: self.weights[i] }).collect()
    }

    fn bad_size(&self) -> bool {
        self.n == 0 || self.n > MOST_VERTICES
    }

    fn short_table(&self) -> bool {
        [&self.tails, &self.heads, &self.weights].iter().any(|l| l.len() < MOST_EDGES)
    }

    fn short_rows(&self) -> bool {
        let words = self.landmarks.len() as u128 * PROPERTIES as u128 * u128::from(self.n);
        (self.forward.len() as u128) < words || (self.backward.len() as u128) < words
    }

    fn bad_landmarks(&self) -> bool {
        let l = &self.landmarks;
        l.is_empty() || l.len() > MOST_LANDMARKS || l.iter().any(|&v| v >= self.n) || (0..l.len()).any(|i| l[..i].contains(&l[i]))
    }

    /// The place of the first record that breaks the table's rules; 0 for the count.
    fn bad_table(&self) -> Option<usize> {
        if self.count as usize > MOST_EDGES {
            return Some(0);
        }
        let edges = self.edges();
        (0..edges.len()).find(|&i| {
            let e = edges[i];
            let placed = e.tail < self.n && e.head < self.n && e.tail != e.head;
            let weighed = (1..=65_535).contains(&e.weight);
            let ascends = i == 0 || edges[i - 1].words() < e.words();
            !(placed && weighed && ascends)
        })
    }

    /// Numbers 1 to 4 of a call on a network; `size` and `short` are what else the call has for 1 and 2.
    fn judge(&self, size: bool, short: bool) -> Answer<()> {
        if self.bad_size() || size {
            return refuse(1, 0);
        }
        if self.short_table() || self.short_rows() || short {
            return refuse(2, 0);
        }
        if self.bad_landmarks() {
            return refuse(3, 0);
        }
        match self.bad_table() {
            Some(place) => refuse(4, place),
            None => Ok(()),
        }
    }

    /// Where the row of a landmark (an index of the list) for a property starts in a row list.
    fn row_start(&self, landmark: usize, p: u32) -> usize {
        (landmark * PROPERTIES + p as usize - 1) * self.n as usize
    }
}

// ---- runs

#[derive(Clone, Copy, Debug, Default, PartialEq, Eq)]
pub struct Tally {
    pub taken: u64,
    pub rounds: u64,
    pub stores: u64,
}

struct Run<'a> {
    p: u32,
    /// the edges that leave each vertex, in table order
    leaving: &'a [Vec<Edge>],
    words: Vec<u32>,
    waiting: Vec<bool>,
    tally: Tally,
}

fn leaving(n: u32, edges: &[Edge]) -> Vec<Vec<Edge>> {
    let mut lists = vec![Vec::new(); n as usize];
    for &e in edges {
        lists[e.tail as usize].push(e);
    }
    lists
}

impl<'a> Run<'a> {
    fn new(p: u32, leaving: &'a [Vec<Edge>], words: Vec<u32>) -> Run<'a> {
        let waiting = vec![false; words.len()];
        Run { p, leaving, words, waiting, tally: Tally::default() }
    }

    fn handle(&mut self, v: usize) {
        self.waiting[v] = false;
        for e in &self.leaving[v] {
            let value = along(self.p, self.words[v], e.weight);
            let h = e.head as usize;
            if better(self.p, value, self.words[h]) {
                self.words[h] = value;
                self.waiting[h] = true;
                self.tally.stores += 1;
            }
        }
    }

    fn any_waits(&self) -> bool {
        self.waiting.iter().any(|&w| w)
    }

    fn follow(&mut self, schedule: &[u32]) {
        for &v in schedule {
            if self.waiting[v as usize] {
                self.tally.taken += 1;
                self.handle(v as usize);
            }
        }
    }

    /// Rounds while any vertex waits. Number 13 where one still waits after n rounds.
    fn settle(&mut self) -> Answer<()> {
        let n = self.words.len();
        for _ in 0..n {
            if !self.any_waits() {
                return Ok(());
            }
            self.tally.rounds += 1;
            for v in 0..n {
                if self.waiting[v] {
                    self.handle(v);
                }
            }
        }
        if self.any_waits() {
            refuse(13, 0)
        } else {
            Ok(())
        }
    }
}

pub fn reversed(edges: &[Edge]) -> Vec<Edge> {
    edges.iter().map(|e| e.reversed()).collect()
}

// ---- opening

fn open_rows(w: &Network, edges: &[Edge]) -> Answer<Vec<u32>> {
    let lists = leaving(w.n, edges);
    let mut rows = Vec::new();
    for &l in &w.landmarks {
        for p in 1..=5 {
            let mut run = Run::new(p, &lists, vec![no_route(p); w.n as usize]);
            run.words[l as usize] = source_value(p);
            run.waiting[l as usize] = true;
            run.settle()?;
            rows.extend(run.words);
        }
    }
    Ok(rows)
}

pub fn open(w: &mut Network) -> Answer<Vec<u64>> {
    w.judge(false, false)?;
    let edges = w.edges();
    let forward = open_rows(w, &edges)?;
    let backward = open_rows(w, &reversed(&edges))?;
    w.forward[..forward.len()].copy_from_slice(&forward);
    w.backward[..backward.len()].copy_from_slice(&backward);
    Ok(vec![])
}

// ---- query

pub fn query(w: &Network, p: u32, source: u32, schedule: &[u32], starts: &mut [u32], settled: &mut [u32]) -> Answer<Vec<u64>> {
    let n = w.n as usize;
    w.judge(schedule.len() > LONGEST_SCHEDULE, starts.len() < n || settled.len() < n)?;
    if !(1..=5).contains(&p) {
        return refuse(5, 0);
    }
    if source >= w.n {
        return refuse(6, 0);
    }
    if let Some(i) = schedule.iter().position(|&v| v >= w.n) {
        return refuse(6, i);
    }
    let bound = |t: usize| {
        let mut best: Option<u32> = None;
        for l in 0..w.landmarks.len() {
            let row = w.row_start(l, p);
            let v = join(p, w.backward[row + source as usize], w.forward[row + t]);
            if best.is_none_or(|b| better(p, v, b)) {
                best = Some(v);
            }
        }
        best.unwrap()
    };
    let mut words: Vec<u32> = (0..n).map(bound).collect();
    words[source as usize] = source_value(p);
    let start = words.clone();
    let lists = leaving(w.n, &w.edges());
    let mut run = Run::new(p, &lists, words);
    run.waiting[source as usize] = true;
    run.follow(schedule);
    run.settle()?;
    starts[..n].copy_from_slice(&start);
    settled[..n].copy_from_slice(&run.words);
    Ok(vec![run.tally.taken, run.tally.rounds, run.tally.stores])
}

// ---- batch

/// Kind, tail, head, weight, old weight.
pub type Change = [u32; 5];

/// One change against the edges as earlier ones left them: its lowest number from 6 to 12, or the edges after it.
pub fn apply(n: u32, edges: &mut Vec<Edge>, c: Change, place: usize) -> Answer<()> {
    let [kind, tail, head, weight, old] = c;
    if tail >= n || head >= n {
        return refuse(6, place);
    }
    if !(1..=3).contains(&kind) {
        return refuse(7, place);
    }
    if tail == head {
        return refuse(8, place);
    }
    let is_weight = |w: u32| (1..=65_535).contains(&w);
    if !is_weight(weight) || !(if kind == 3 { is_weight(old) } else { old == 0 }) {
        return refuse(9, place);
    }
    let at = |w: u32| edges.iter().position(|e| e.words() == (tail, head, w));
    // "a new figure that the pair already has is 10, even with the old one absent, unless the two are equal"
    let comes = kind == 1 || (kind == 3 && weight != old);
    if comes && at(weight).is_some() {
        return refuse(10, place);
    }
    let goes = match kind {
        1 => None,
        2 => Some(at(weight)),
        _ => Some(at(old)),
    };
    if goes == Some(None) {
        return refuse(11, place);
    }
    if kind == 1 && edges.len() >= MOST_EDGES {
        return refuse(12, place);
    }
    if let Some(Some(i)) = goes {
        edges.remove(i);
    }
    if kind != 2 {
        let e = Edge { tail, head, weight };
        let i = edges.iter().take_while(|f| f.words() < e.words()).count();
        edges.insert(i, e);
    }
    Ok(())
}

struct Side {
    rows: Vec<u32>,
    affected: u64,
    stores: u64,
}

/// A weight that was another got worse for a property: "more is worse for time and worst stretch, less is worse for headroom, neither for handovers
/// and reach".
fn got_worse(p: u32, was: u32, is: u32) -> bool {
    match p {
        1 | 4 => is > was,
        3 => is < was,
        _ => false,
    }
}

fn got_better(p: u32, was: u32, is: u32) -> bool {
    match p {
        1 | 4 => is < was,
        3 => is > was,
        _ => false,
    }
}

/// The net effect of a batch on a property: the old edges that go, the old ones that stay, those that come, and all new ones. It compares the two
/// tables; the changes have no part in it.
struct Net {
    removed: Vec<Edge>,
    kept: Vec<Edge>,
    added: Vec<Edge>,
    new: Vec<Edge>,
}

/// What becomes of an edge that one of two tables has: it stays, it is retuned from or to a weight, or it plainly goes or comes.
#[derive(Clone, Copy, PartialEq)]
enum Fate {
    Stays,
    Retuned(u32),
    Alone,
}

/// Each edge of a table with its fate, pair by pair: "triples in both old and new table count as neither; where a pair has just one other old and one other
/// new triple they are a retune, else all others are plainly removed or added".
fn fates(own: &[Edge], other: &[Edge]) -> Vec<(Edge, Fate)> {
    let mut pairs: std::collections::BTreeMap<(u32, u32), [Vec<u32>; 2]> = Default::default();
    for (side, (list, against)) in [(own, other), (other, own)].into_iter().enumerate() {
        let there: std::collections::BTreeSet<(u32, u32, u32)> = against.iter().map(Edge::words).collect();
        for e in list.iter().filter(|e| !there.contains(&e.words())) {
            pairs.entry((e.tail, e.head)).or_default()[side].push(e.weight);
        }
    }
    let fate = |e: &Edge| match pairs.get(&(e.tail, e.head)) {
        Some([left, right]) if left.contains(&e.weight) => match (&left[..], &right[..]) {
            ([_], [weight]) => Fate::Retuned(*weight),
            _ => Fate::Alone,
        },
        _ => Fate::Stays,
    };
    own.iter().map(|e| (*e, fate(e))).collect()
}

impl Net {
    fn of(p: u32, old: &[(Edge, Fate)], new: &[(Edge, Fate)]) -> Net {
        let goes = |e: &Edge, fate: Fate| match fate {
            Fate::Stays => false,
            Fate::Retuned(is) => got_worse(p, e.weight, is),
            Fate::Alone => true,
        };
        let comes = |e: &Edge, fate: Fate| match fate {
            Fate::Stays => false,
            Fate::Retuned(was) => got_better(p, was, e.weight),
            Fate::Alone => true,
        };
        let (removed, kept) = old.iter().partition::<Vec<_>, _>(|(e, fate)| goes(e, *fate));
        let added = new.iter().filter(|(e, fate)| comes(e, *fate)).copied().collect();
        let [removed, kept, added, new] = [removed, kept, added, new.to_vec()].map(|list: Vec<(Edge, Fate)>| list.into_iter().map(|(e, _)| e).collect());
        Net { removed, kept, added, new }
    }

    fn reversed(&self) -> Net {
        Net { removed: reversed(&self.removed), kept: reversed(&self.kept), added: reversed(&self.added), new: reversed(&self.new) }
    }
}

/// What a batch does to one row list; its net effect on each property in turn.
fn batch_rows(w: &Network, nets: &[Net], list: &[u32]) -> Answer<Side> {
    let n = w.n as usize;
    let kept: Vec<Vec<Vec<Edge>>> = nets.iter().map(|net| leaving(w.n, &net.kept)).collect();
    let new_from = leaving(w.n, &nets[0].new);
    let mut side = Side { rows: Vec::new(), affected: 0, stores: 0 };
    for (i, &l) in w.landmarks.iter().enumerate() {
        for p in 1..=5 {
            let (net, kept_from) = (&nets[p as usize - 1], &kept[p as usize - 1]);
            let start = w.row_start(i, p);
            let words = list[start..start + n].to_vec();
            // the head of a tight edge, where it can be affected
            let tight = |e: &Edge| e.head != l && words[e.head as usize] != no_route(p) && along(p, words[e.tail as usize], e.weight) == words[e.head as usize];
            let mut affected = vec![false; n];
            let mut to_follow: Vec<u32> = net.removed.iter().filter(|&e| tight(e)).map(|e| e.head).collect();
            while let Some(v) = to_follow.pop() {
                if !affected[v as usize] {
                    affected[v as usize] = true;
                    to_follow.extend(kept_from[v as usize].iter().filter(|&e| tight(e)).map(|e| e.head));
                }
            }
            let mut run = Run::new(p, &new_from, words.clone());
            for v in 0..n {
                if affected[v] {
                    run.words[v] = no_route(p);
                    side.affected += 1;
                }
            }
            for e in net.new.iter().filter(|e| affected[e.head as usize]).chain(&net.added) {
                run.waiting[e.tail as usize] = true;
            }
            run.settle()?;
            side.stores += run.tally.stores;
            side.rows.extend(run.words);
        }
    }
    Ok(side)
}

pub fn batch(w: &mut Network, changes: &[Change]) -> Answer<Vec<u64>> {
    w.judge(changes.len() > MOST_CHANGES, false)?;
    let old = w.edges();
    let mut new = old.clone();
    for (i, &c) in changes.iter().enumerate() {
        apply(w.n, &mut new, c, i)?;
    }
    let (gone, come) = (fates(&old, &new), fates(&new, &old));
    let nets: Vec<Net> = (1..=5).map(|p| Net::of(p, &gone, &come)).collect();
    let turned: Vec<Net> = nets.iter().map(Net::reversed).collect();
    let ahead = batch_rows(w, &nets, &w.forward)?;
    let back = batch_rows(w, &turned, &w.backward)?;
    w.forward[..ahead.rows.len()].copy_from_slice(&ahead.rows);
    w.backward[..back.rows.len()].copy_from_slice(&back.rows);
    for i in 0..MOST_EDGES {
        let e = new.get(i).copied().unwrap_or(Edge { tail: 0, head: 0, weight: 0 });
        w.tails[i] = e.tail;
        w.heads[i] = e.head;
        w.weights[i] = e.weight;
    }
    Ok(vec![new.len() as u64, ahead.affected + back.affected, ahead.stores + back.stores])
}

// ---- calls that write nothing

pub fn settled(w: &Network) -> Answer<Vec<u64>> {
    w.judge(false, false)?;
    let edges = w.edges();
    let n = w.n as usize;
    for (side, list, edges) in [(0, &w.forward, edges.clone()), (1, &w.backward, reversed(&edges))] {
        for row in 0..w.landmarks.len() * PROPERTIES {
            let p = (row % PROPERTIES) as u32 + 1;
            let words = &list[row * n..row * n + n];
            for (record, e) in edges.iter().enumerate() {
                if better(p, along(p, words[e.tail as usize], e.weight), words[e.head as usize]) {
                    return Ok(vec![0, side, row as u64, record as u64]);
                }
            }
        }
    }
    Ok(vec![1])
}

/// Only n, the table and the count of `w` are taken.
pub fn choose(w: &Network, k: u32) -> Answer<Vec<u64>> {
    if w.bad_size() {
        return refuse(1, 0);
    }
    if w.short_table() {
        return refuse(2, 0);
    }
    if !(1..=4).contains(&k) {
        return refuse(3, 0);
    }
    if let Some(place) = w.bad_table() {
        return refuse(4, place);
    }
    let edges = w.edges();
    let degree = |v: u32| edges.iter().filter(|e| e.tail == v || e.head == v).count();
    let mut vertices: Vec<(std::cmp::Reverse<usize>, u32)> = (0..w.n).map(|v| (std::cmp::Reverse(degree(v)), v)).collect();
    vertices.sort();
    vertices.truncate(k as usize);
    let mut reply = vec![vertices.len() as u64, 0, 0, 0, 0];
    for (i, (_, v)) in vertices.iter().enumerate() {
        reply[i + 1] = u64::from(*v);
    }
    Ok(reply)
}

/// Only n, the landmarks and the rows of `w` are taken.
pub fn row(w: &Network, side: u32, landmark: u32, p: u32) -> Answer<Vec<u64>> {
    if w.bad_size() {
        return refuse(1, 0);
    }
    if w.short_rows() {
        return refuse(2, 0);
    }
    let at = w.landmarks.iter().position(|&l| l == landmark);
    if w.bad_landmarks() || at.is_none() {
        return refuse(3, 0);
    }
    if !(1..=5).contains(&p) || side > 1 {
        return refuse(5, 0);
    }
    Ok(vec![w.row_start(at.unwrap(), p) as u64])
}

// ---- the route behind a value

/// The best value over the walks of exactly k edges from each vertex to the target, for every k below n; none where there is no such walk. A route with
/// the fewest edges passes no vertex twice, so that longer ones need not be looked at. Values of walks are met from their last edge back: sums, lesser
/// and greater do not go by order.
fn exact_lengths(p: u32, n: u32, edges: &[Edge], target: u32) -> Vec<Vec<Option<u32>>> {
    let mut table = vec![vec![None; n as usize]];
    table[0][target as usize] = Some(source_value(p));
    for k in 1..n as usize {
        let mut row: Vec<Option<u32>> = vec![None; n as usize];
        for e in edges {
            let value = table[k - 1][e.head as usize].map(|rest| along(p, rest, e.weight));
            let word = &mut row[e.tail as usize];
            if value.is_some_and(|v| word.is_none_or(|best| better(p, v, best))) {
                *word = value;
            }
        }
        table.push(row);
    }
    table
}

/// The vertices of the route, or none where no route leads to the target. Its length is the least at which the best value of all lengths is met; each step
/// then goes to the lowest vertex from which the edges that are left can still end with that value: the best they have by themselves, joined with the
/// best that the edges up to there can have, is the best they can end with.
pub fn route_by_lengths(p: u32, n: u32, edges: &[Edge], source: u32, target: u32) -> Option<Vec<u32>> {
    let table = exact_lengths(p, n, edges, target);
    let of_length = |k: usize| table[k][source as usize];
    let best = best_of(p, (0..n as usize).filter_map(of_length))?;
    let length = (0..n as usize).find(|&k| of_length(k) == Some(best))?;
    let (mut at, mut value) = (source, source_value(p));
    let mut route = vec![source];
    for left in (0..length).rev() {
        let keeps = |e: &&Edge| table[left][e.head as usize].is_some_and(|rest| join(p, along(p, value, e.weight), rest) == best);
        let next = edges.iter().filter(|e| e.tail == at).filter(keeps).map(|e| e.head).min()?;
        value = best_of(p, weights_of(edges, at, next).into_iter().map(|weight| along(p, value, weight)))?;
        at = next;
        route.push(next);
    }
    Some(route)
}

/// The weights from one vertex to the next, ascending.
fn weights_of(edges: &[Edge], tail: u32, head: u32) -> Vec<u32> {
    let mut list: Vec<u32> = edges.iter().filter(|e| (e.tail, e.head) == (tail, head)).map(|e| e.weight).collect();
    list.sort();
    list
}

fn best_of(p: u32, values: impl Iterator<Item = u32>) -> Option<u32> {
    values.reduce(|a, b| if better(p, b, a) { b } else { a })
}

/// For each segment of a route the least weight such that some choice of weights along its vertices that has it there has the route's value. The best
/// choice before a segment and the best one after it decide that, since no choice betters the value; both are met segment by segment.
pub fn figures_by_parts(p: u32, edges: &[Edge], vertices: &[u32]) -> Vec<u32> {
    let twins: Vec<Vec<u32>> = vertices.windows(2).map(|pair| weights_of(edges, pair[0], pair[1])).collect();
    let on = |value: &u32, list: &Vec<u32>| best_of(p, list.iter().map(|&weight| along(p, *value, weight))).unwrap();
    let mut ahead = vec![source_value(p)];
    for list in &twins {
        ahead.push(on(ahead.last().unwrap(), list));
    }
    let mut behind = vec![source_value(p)];
    for list in twins.iter().rev() {
        behind.push(on(behind.last().unwrap(), list));
    }
    let value = *ahead.last().unwrap();
    let (before, after) = (ahead.iter(), behind.iter().rev().skip(1));
    let keeps = |a: u32, b: u32, weight: u32| join(p, along(p, a, weight), b) == value;
    twins.iter().zip(before).zip(after).map(|((list, &a), &b)| *list.iter().find(|&&weight| keeps(a, b, weight)).unwrap()).collect()
}

/// The vertices of a walk: the source, then the head of each edge.
fn visited(source: u32, walk: &[Edge]) -> Vec<u32> {
    std::iter::once(source).chain(walk.iter().map(|e| e.head)).collect()
}

/// The edges along these vertices with these weights.
pub fn edges_along(vertices: &[u32], figures: &[u32]) -> Vec<Edge> {
    vertices.windows(2).zip(figures).map(|(pair, &weight)| Edge { tail: pair[0], head: pair[1], weight }).collect()
}

/// The value of a route: "starts at the source's and goes along".
pub fn value_along(p: u32, route: &[Edge]) -> u32 {
    route.iter().fold(source_value(p), |value, e| along(p, value, e.weight))
}

/// The same route and its figures by listing every walk of fewer than n edges and choosing in document 02's words: a best one, "the fewest segments, then the
/// lowest station at the first place where two differ"; and of all best walks along the same vertices, at each segment "the lowest figure with which the
/// route keeps its value". For a few vertices only.
pub fn route_by_listing(p: u32, n: u32, edges: &[Edge], source: u32, target: u32) -> Option<(Vec<u32>, Vec<u32>)> {
    let mut walks: Vec<Vec<Edge>> = vec![vec![]];
    let mut longest = 0..walks.len();
    for _ in 1..n {
        for i in longest.clone() {
            let end = walks[i].last().map_or(source, |e| e.head);
            for &e in edges.iter().filter(|e| e.tail == end) {
                walks.push([&walks[i][..], &[e]].concat());
            }
        }
        longest = longest.end..walks.len();
    }
    let mut there: Vec<Vec<Edge>> = walks.into_iter().filter(|walk| visited(source, walk).last() == Some(&target)).collect();
    let best = best_of(p, there.iter().map(|walk| value_along(p, walk)))?;
    there.retain(|walk| value_along(p, walk) == best);
    let vertices = there.iter().min_by_key(|walk| (walk.len(), visited(source, walk))).map(|walk| visited(source, walk))?;
    there.retain(|walk| visited(source, walk) == vertices);
    let figures = (1..vertices.len()).map(|i| there.iter().map(|walk| walk[i - 1].weight).min().unwrap()).collect();
    Some((vertices, figures))
}

/// For each edge of a route 1 where it set the value and 0 where it passed it on: "for headroom and worst stretch it sets where the running value changes,
/// for time and handovers always, for reach never".
pub fn marks_of(p: u32, route: &[Edge]) -> Vec<u32> {
    let mut value = source_value(p);
    let mut marks = Vec::new();
    for e in route {
        let next = along(p, value, e.weight);
        let sets = match p {
            1 | 2 => true,
            3 | 4 => next != value,
            _ => false,
        };
        marks.push(u32::from(sets));
        value = next;
    }
    marks
}

/// Only n, the table and the count of `w` are taken.
pub fn route(w: &Network, p: u32, source: u32, target: u32, vertices: &mut [u32], marks: &mut [u32], figures: &mut [u32]) -> Answer<Vec<u64>> {
    let n = w.n as usize;
    if w.bad_size() {
        return refuse(1, 0);
    }
    if w.short_table() || vertices.len() < n || marks.len() < n || figures.len() < n {
        return refuse(2, 0);
    }
    if let Some(place) = w.bad_table() {
        return refuse(4, place);
    }
    if !(1..=5).contains(&p) {
        return refuse(5, 0);
    }
    if source >= w.n || target >= w.n {
        return refuse(6, 0);
    }
    let edges = w.edges();
    let Some(through) = route_by_lengths(p, w.n, &edges, source, target) else {
        return refuse(15, 0);
    };
    let named = figures_by_parts(p, &edges, &through);
    // "its marks go by these"
    let set = marks_of(p, &edges_along(&through, &named));
    vertices[..through.len()].copy_from_slice(&through);
    marks[..set.len()].copy_from_slice(&set);
    figures[..named.len()].copy_from_slice(&named);
    Ok(vec![through.len() as u64])
}

// ---- what a batch would do

/// What becomes of a vertex: "0 same, 1 gained a route, 2 lost it or 3 moved, with after minus before as a signed number where both have a route, else 0".
/// A vertex has a route where its word is not the no-route word.
fn becomes(p: u32, before: u32, after: u32) -> (u32, i64) {
    let (had, has) = (before != no_route(p), after != no_route(p));
    let effect = match (had, has) {
        _ if before == after => 0,
        (false, _) => 1,
        (_, false) => 2,
        _ => 3,
    };
    (effect, if had && has { i64::from(after) - i64::from(before) } else { 0 })
}

/// The settled words of a query without a schedule.
fn settled_words(w: &Network, p: u32, source: u32) -> Answer<Vec<u32>> {
    let (mut starts, mut settled) = (vec![0; w.n as usize], vec![0; w.n as usize]);
    query(w, p, source, &[], &mut starts, &mut settled)?;
    Ok(settled)
}

/// "It equals applying the batch to a copy and querying before and after": on whatever words stand in the rows.
pub fn preview(w: &Network, changes: &[Change], p: u32, source: u32, effects: &mut [u32], moves: &mut [i64]) -> Answer<Vec<u64>> {
    let n = w.n as usize;
    w.judge(changes.len() > MOST_CHANGES, effects.len() < n || moves.len() < n)?;
    if !(1..=5).contains(&p) {
        return refuse(5, 0);
    }
    if source >= w.n {
        return refuse(6, 0);
    }
    let mut copy = w.clone();
    copy.count = batch(&mut copy, changes)?[0] as u32;
    let before = settled_words(w, p, source)?;
    let after = settled_words(&copy, p, source)?;
    let told = before.iter().zip(&after).map(|(&a, &b)| becomes(p, a, b));
    for (entry, (effect, by)) in effects.iter_mut().zip(moves.iter_mut()).zip(told) {
        (*entry.0, *entry.1) = (effect, by);
    }
    Ok(vec![])
}

/// How much a vertex loses by its two entries: a lost route is more than any move, and a move counts by its way for the worse. Nothing where it does
/// not lose.
fn loss(p: u32, effect: u32, by: i64) -> Option<i128> {
    let worse = if better(p, 1, 0) { -i128::from(by) } else { i128::from(by) };
    match effect {
        2 => Some(i128::MAX),
        3 if worse > 0 => Some(worse),
        _ => None,
    }
}

/// How many vertices gained a route, lost it, moved for the better and for the worse, and the lowest of those that lose most; n where none does.
pub fn digest(n: u32, p: u32, effects: &[u32], moves: &[i64]) -> Answer<Vec<u64>> {
    if n == 0 || n > MOST_VERTICES {
        return refuse(1, 0);
    }
    if effects.len() < n as usize || moves.len() < n as usize {
        return refuse(2, 0);
    }
    if !(1..=5).contains(&p) {
        return refuse(5, 0);
    }
    let entries: Vec<(u32, i64)> = effects.iter().copied().zip(moves.iter().copied()).take(n as usize).collect();
    let losses: Vec<Option<i128>> = entries.iter().map(|&(e, by)| loss(p, e, by)).collect();
    let (gained, lost, moved) = [1, 2, 3].map(|effect| entries.iter().filter(|x| x.0 == effect && (effect < 3 || x.1 != 0)).count()).into();
    let losing = losses.iter().flatten().count();
    let most = losses.iter().flatten().max();
    let named = losses.iter().position(|x| x.is_some() && x.as_ref() == most).unwrap_or(n as usize);
    Ok([gained, lost, moved + lost - losing, losing - lost, named].map(|x| x as u64).to_vec())
}

// ---- text

/// A number as document 01 writes them, of any length; those above every limit are told apart from none that fits.
fn number(field: &[u8]) -> Option<u64> {
    if field.is_empty() || !field.iter().all(u8::is_ascii_digit) || (field.len() > 1 && field[0] == b'0') {
        return None;
    }
    if field.len() > 12 {
        return Some(u64::MAX);
    }
    std::str::from_utf8(field).unwrap().parse().ok()
}

fn is_comment(line: &[u8]) -> bool {
    line == b"c" || line.starts_with(b"c ")
}

/// The complete lines of a text, and whether bytes follow the last of them.
fn lines(text: &[u8]) -> (Vec<&[u8]>, bool) {
    let mut parts: Vec<&[u8]> = text.split(|&b| b == b'\n').collect();
    let rest = parts.pop().unwrap();
    (parts, !rest.is_empty())
}

/// The numbers of a line that has these words and then as many numbers.
fn fields<const K: usize>(line: &[u8], words: &[&[u8]]) -> Option<[u64; K]> {
    let parts: Vec<&[u8]> = line.split(|&b| b == b' ').collect();
    if parts.len() != words.len() + K || parts[..words.len()] != *words {
        return None;
    }
    let mut numbers = [0; K];
    for (x, part) in numbers.iter_mut().zip(&parts[words.len()..]) {
        *x = number(part)?;
    }
    Some(numbers)
}

/// A network text: vertices and edges ascending, or the place of number 14.
pub fn parse_network(text: &[u8]) -> Result<(u32, Vec<Edge>), usize> {
    let (complete, cut) = lines(text);
    let mut header: Option<(u64, u64)> = None;
    let mut edges: Vec<Edge> = Vec::new();
    for (i, line) in complete.iter().enumerate() {
        let good = if is_comment(line) {
            true
        } else if let Some([n, m]) = fields::<2>(line, &[b"p", b"sp"]) {
            let fits = header.is_none() && (1..=256).contains(&n) && m <= 2_048 && (n > 1 || m == 0);
            header = Some((n, m));
            fits
        } else if let (Some([t, h, x]), Some((n, m))) = (fields::<3>(line, &[b"a"]), header) {
            let fits = (edges.len() as u64) < m && (1..=n).contains(&t) && (1..=n).contains(&h) && t != h && (1..=65_535).contains(&x);
            if fits {
                let e = Edge { tail: t as u32 - 1, head: h as u32 - 1, weight: x as u32 };
                let twice = edges.contains(&e);
                edges.push(e);
                !twice
            } else {
                false
            }
        } else {
            false
        };
        if !good {
            return Err(i + 1);
        }
    }
    match header {
        Some((n, m)) if !cut && edges.len() as u64 == m => {
            edges.sort_by_key(Edge::words);
            Ok((n as u32, edges))
        }
        _ => Err(complete.len() + 1),
    }
}

pub fn read(text: &[u8], tails: &mut [u32], heads: &mut [u32], weights: &mut [u32]) -> Answer<Vec<u64>> {
    if tails.len() < MOST_EDGES || heads.len() < MOST_EDGES || weights.len() < MOST_EDGES {
        return refuse(2, 0);
    }
    match parse_network(text) {
        Err(place) => refuse(14, place),
        Ok((n, edges)) => {
            for (i, e) in edges.iter().enumerate() {
                tails[i] = e.tail;
                heads[i] = e.head;
                weights[i] = e.weight;
            }
            Ok(vec![u64::from(n), edges.len() as u64])
        }
    }
}

pub fn print_network(n: u32, edges: &[Edge]) -> Vec<u8> {
    let mut text = format!("p sp {} {}\n", n, edges.len());
    for e in edges {
        text += &format!("a {} {} {}\n", e.tail + 1, e.head + 1, e.weight);
    }
    text.into_bytes()
}

/// Only n, the table and the count of `w` are taken.
pub fn write(w: &Network, text: &mut [u8]) -> Answer<Vec<u64>> {
    if w.bad_size() {
        return refuse(1, 0);
    }
    if w.short_table() {
        return refuse(2, 0);
    }
    if let Some(place) = w.bad_table() {
        return refuse(4, place);
    }
    let printed = print_network(w.n, &w.edges());
    if text.len() < printed.len() {
        return refuse(2, 0);
    }
    text[..printed.len()].copy_from_slice(&printed);
    Ok(vec![printed.len() as u64])
}

/// A source file: vertices from 0, or the place of number 14.
pub fn parse_sources(text: &[u8], n: u32) -> Result<Vec<u32>, usize> {
    let (complete, cut) = lines(text);
    let mut header: Option<u64> = None;
    let mut sources = Vec::new();
    for (i, line) in complete.iter().enumerate() {
        let good = if is_comment(line) {
            true
        } else if let Some([m]) = fields::<1>(line, &[b"p", b"aux", b"sp", b"ss"]) {
            let fits = header.is_none() && m <= 256;
            header = Some(m);
            fits
        } else if let (Some([s]), Some(m)) = (fields::<1>(line, &[b"s"]), header) {
            let fits = (sources.len() as u64) < m && s >= 1 && s <= u64::from(n);
            sources.push((s as u32).wrapping_sub(1));
            fits
        } else {
            false
        };
        if !good {
            return Err(i + 1);
        }
    }
    match header {
        Some(m) if !cut && sources.len() as u64 == m => Ok(sources),
        _ => Err(complete.len() + 1),
    }
}

pub fn read_sources(text: &[u8], n: u32, sources: &mut [u32]) -> Answer<Vec<u64>> {
    if n == 0 || n > MOST_VERTICES {
        return refuse(1, 0);
    }
    if sources.len() < 256 {
        return refuse(2, 0);
    }
    match parse_sources(text, n) {
        Err(place) => refuse(14, place),
        Ok(found) => {
            sources[..found.len()].copy_from_slice(&found);
            Ok(vec![found.len() as u64])
        }
    }
}

// ---- the values program

/// What the values program prints for its two files; one that can't be opened counts as empty.
pub fn values(deck: &[u8], sources: &[u8]) -> Vec<u8> {
    match try_values(deck, sources) {
        Ok(text) => text.into_bytes(),
        Err(r) => format!("refused {} {}\n", r.number, r.place).into_bytes(),
    }
}

fn try_values(deck: &[u8], sources: &[u8]) -> Answer<String> {
    if deck.len() > 65_536 {
        return refuse(2, 0);
    }
    let mut w = Network { tails: vec![0; 2_048], heads: vec![0; 2_048], weights: vec![0; 2_048], ..Network::default() };
    let told = read(deck, &mut w.tails, &mut w.heads, &mut w.weights)?;
    w.n = told[0] as u32;
    w.count = told[1] as u32;
    if sources.len() > 65_536 {
        return refuse(2, 0);
    }
    let mut list = vec![0; 256];
    let found = read_sources(sources, w.n, &mut list)?[0] as usize;
    let chosen = choose(&w, 4)?;
    w.landmarks = chosen[1..=chosen[0] as usize].iter().map(|&v| v as u32).collect();
    w.forward = vec![0; w.landmarks.len() * PROPERTIES * w.n as usize];
    w.backward = w.forward.clone();
    open(&mut w)?;
    let mut out = String::from("source station time handovers headroom worst reach\n");
    for &s in &list[..found] {
        let mut columns = Vec::new();
        for p in 1..=5 {
            let mut starts = vec![0; w.n as usize];
            let mut words = vec![0; w.n as usize];
            query(&w, p, s, &[], &mut starts, &mut words)?;
            columns.push(words);
        }
        for t in 0..w.n as usize {
            out += &format!("{} {}", s + 1, t + 1);
            for column in &columns {
                out += &format!(" {}", column[t]);
            }
            out.push('\n');
        }
    }
    Ok(out)
}

// ---- best values, apart from any run

/// The best values from a vertex: every edge is tried over and over, at most n times, until none betters a word.
pub fn best_values(p: u32, n: u32, edges: &[Edge], source: u32) -> Vec<u32> {
    let mut words = vec![no_route(p); n as usize];
    words[source as usize] = source_value(p);
    for _ in 0..n {
        let before = words.clone();
        for e in edges {
            let v = along(p, words[e.tail as usize], e.weight);
            if better(p, v, words[e.head as usize]) {
                words[e.head as usize] = v;
            }
        }
        if words == before {
            break;
        }
    }
    words
}

/// Which vertices a route from the source leads to: those that its edges reach, one after the other.
pub fn reached(n: u32, edges: &[Edge], source: u32) -> Vec<bool> {
    let mut found = vec![false; n as usize];
    let mut to_follow = vec![source];
    while let Some(v) = to_follow.pop() {
        if !std::mem::replace(&mut found[v as usize], true) {
            to_follow.extend(edges.iter().filter(|e| e.tail == v).map(|e| e.head));
        }
    }
    found
}

/// Both row lists as best values of the edges.
pub fn best_rows(n: u32, landmarks: &[u32], edges: &[Edge]) -> (Vec<u32>, Vec<u32>) {
    let side = |edges: &[Edge]| landmarks.iter().flat_map(|&l| (1..=5).flat_map(move |p| best_values(p, n, edges, l))).collect();
    (side(edges), side(&reversed(edges)))
}
