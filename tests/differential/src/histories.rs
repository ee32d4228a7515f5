//! Whole histories: drawn networks through an opening and batches, and one at every limit. At each state all is asked that can be, and held
//! to best values and to the network as it is now, reckoned from the changes alone.

use crate::case::{Call, Case};
use crate::previews::{digest, is_true, unlike_after};
use crate::random::Random;
use crate::reference::{self, Change, Edge, Network};
use crate::{check, generate, unlike_now, value_told, Counts, Failure};

const HISTORIES: u64 = 200;
const BATCHES: u32 = 5;

/// A network that is followed: as it is lent, and its edges as they are now.
struct Followed<'a> {
    r: Random,
    w: Network,
    now: Vec<Edge>,
    counts: &'a mut Counts,
}

type Held = Result<(), Box<Failure>>;

/// A preview of a batch that is still to be applied: what was asked, number and outcome, and the settled words before the batch.
struct Foretold {
    c: Case,
    number: u32,
    shown: Case,
    before: Vec<u32>,
}

impl Followed<'_> {
    /// The call both ways: number and outcome, the same by either.
    fn call(&mut self, c: &Case) -> Result<(u32, Case), Box<Failure>> {
        check(c, self.r.next() as u32, self.counts)
    }

    /// A call that must be accepted.
    fn accepted(&mut self, c: &Case) -> Result<Case, Box<Failure>> {
        let (number, after) = self.call(c)?;
        hold(c, number == 0, "a good call is refused")?;
        Ok(after)
    }

    fn drawn(&mut self, call: Call) -> Case {
        generate::case(&mut self.r, call, &self.w, false)
    }

    /// Every property from these sources, with no schedule and with one.
    fn queries(&mut self, sources: &[u32]) -> Held {
        for p in 1..=5 {
            for &source in sources {
                let best = reference::best_values(p, self.w.n, &self.now, source);
                for scheduled in [false, true] {
                    let mut c = Case { property: p, source, ..self.drawn(Call::Query) };
                    c.schedule = (0..if scheduled { 1 + self.r.below(12) } else { 0 }).map(|_| self.r.below(self.w.n)).collect();
                    let after = self.accepted(&c)?;
                    hold(&c, after.settled[..best.len()] == best, "a settled word is not the best value")?;
                }
            }
        }
        Ok(())
    }

    /// Every property from these sources to these targets: the value along a route is the query's settled word.
    fn routes(&mut self, sources: &[u32], targets: &[u32]) -> Held {
        for p in 1..=5 {
            for &source in sources {
                let asked = Case { property: p, source, schedule: vec![], ..self.drawn(Call::Query) };
                let settled = self.accepted(&asked)?.settled;
                for &target in targets {
                    let c = Case { property: p, source, target, ..self.drawn(Call::Route) };
                    let (number, after) = self.call(&c)?;
                    hold(&c, matches!(number, 0 | 15), "a good call is refused")?;
                    hold(&c, value_told(number, &after) == Some(settled[target as usize]), "the value along a route is not the settled word")?;
                }
            }
        }
        Ok(())
    }

    /// Every row of both sides.
    fn rows(&mut self) -> Held {
        for landmark in self.w.landmarks.clone() {
            for row in 0..10 {
                let c = Case { landmark, side: row / 5, property: row % 5 + 1, ..self.drawn(Call::Row) };
                let start = self.accepted(&c)?.reply[0] as usize;
                let (list, edges) = if c.side == 0 { (&self.w.forward, self.now.clone()) } else { (&self.w.backward, reference::reversed(&self.now)) };
                let best = reference::best_values(c.property, self.w.n, &edges, landmark);
                hold(&c, list[start..start + best.len()] == best, "a row is not where the look-up says")?;
            }
        }
        Ok(())
    }

    /// The network's text in table order and in any order with comments, both read as the network, and a source file.
    fn texts(&mut self) -> Held {
        let c = self.drawn(Call::Write);
        let after = self.accepted(&c)?;
        let written = after.text[..after.reply[0] as usize].to_vec();
        for text in [written, generate::network_text(&mut self.r, &self.w, false)] {
            let mut c = Case { text, ..self.drawn(Call::Read) };
            for list in [&mut c.network.tails, &mut c.network.heads, &mut c.network.weights] {
                list.fill(9);
            }
            let after = self.accepted(&c)?;
            let read = Network { n: after.reply[0] as u32, count: after.reply[1] as u32, ..after.network };
            hold(&c, read.n == self.w.n && read.edges() == self.now, "a text is not read as the network")?;
        }
        let c = self.drawn(Call::ReadSources);
        self.call(&c).map(|_| ())
    }

    /// All that can be asked of a state, from these sources to these targets.
    fn state(&mut self, sources: &[u32], targets: &[u32]) -> Held {
        let c = self.drawn(Call::Settled);
        let said = unlike_now(&self.w, &self.now);
        hold(&c, said.is_none(), said.as_deref().unwrap_or_default())?;
        let after = self.accepted(&c)?;
        hold(&c, after.reply[0] == 1, "best values are said to be unsettled")?;
        for k in 1..=4 {
            let c = Case { k, ..self.drawn(Call::Choose) };
            self.accepted(&c)?;
        }
        self.queries(sources)?;
        self.routes(sources, targets)?;
        self.rows()?;
        self.texts()
    }

    fn open(&mut self) -> Held {
        let c = self.drawn(Call::Open);
        self.w = self.accepted(&c)?.network;
        Ok(())
    }

    /// The settled words of a property from a source, with no schedule.
    fn asked(&mut self, property: u32, source: u32) -> Result<Vec<u32>, Box<Failure>> {
        let c = Case { property, source, schedule: vec![], ..self.drawn(Call::Query) };
        let mut settled = self.accepted(&c)?.settled;
        settled.truncate(self.w.n as usize);
        Ok(settled)
    }

    /// What the changes would do to each property, each from a drawn source. The network stays as it is.
    fn previews(&mut self, changes: &[Change]) -> Result<Vec<Foretold>, Box<Failure>> {
        let mut list = Vec::new();
        for property in 1..=5 {
            let source = self.r.below(self.w.n);
            let c = Case { property, source, changes: changes.to_vec(), ..self.drawn(Call::Preview) };
            let before = self.asked(property, source)?;
            let (number, shown) = self.call(&c)?;
            hold(&c, shown.network == self.w, "a preview writes the network")?;
            list.push(Foretold { c, number, shown, before });
        }
        Ok(list)
    }

    /// What was foretold of a batch, after it: it was judged as its previews were, and they showed the words that are asked for now, and the best values on
    /// the edges before it and now.
    fn come_true(&mut self, list: &[Foretold], number: u32, place: u64, old: &[Edge]) -> Held {
        for Foretold { c, number: said, shown, before } in list {
            hold(c, *said == number && (number == 0 || shown.reply[0] == place), "a batch is not judged as its preview was")?;
            if number == 0 {
                let after = self.asked(c.property, c.source)?;
                hold(c, is_true(shown, before, &after), "a preview is not what becomes of the settled words")?;
                let said = unlike_after(shown, old, &self.now);
                hold(c, said.is_none(), said.unwrap_or_default())?;
                self.counts.previews += 1;
                digest(shown, self.r.next() as u32, self.counts)?;
            }
        }
        Ok(())
    }

    /// A batch, which is previewed first: where it is accepted, the network is another.
    fn batch(&mut self, changes: Vec<Change>) -> Held {
        let foretold = self.previews(&changes)?;
        let old = self.now.clone();
        let c = Case { changes, ..self.drawn(Call::Batch) };
        let (number, after) = self.call(&c)?;
        let mut next = self.now.clone();
        let good = c.changes.iter().enumerate().all(|(i, &change)| reference::apply(self.w.n, &mut next, change, i).is_ok());
        hold(&c, good == (number == 0) || c.changes.len() > reference::MOST_CHANGES, "the batch's changes say otherwise")?;
        if number == 0 {
            self.counts.twins += u64::from(generate::has_twins(&self.now));
            self.w = Network { count: after.reply[0] as u32, ..after.network };
            self.now = next;
            self.counts.batches += 1;
            self.counts.updates += c.changes.iter().filter(|change| change[0] == 3).count() as u64;
        }
        self.come_true(&foretold, number, after.reply[0], &old)
    }
}

fn hold(c: &Case, right: bool, said: &str) -> Held {
    if right {
        return Ok(());
    }
    Err(Box::new(Failure { case: c.clone(), said: said.into() }))
}

/// A network of up to 12 vertices through an opening and batches, a quarter of them bad.
fn drawn(mut r: Random, counts: &mut Counts) -> Held {
    let w = std::iter::repeat_with(|| generate::network(&mut r)).find(|w| w.n <= 12).unwrap();
    let mut f = Followed { now: w.edges(), r, w, counts };
    let all: Vec<u32> = (0..f.w.n).collect();
    f.open()?;
    f.state(&all, &all)?;
    for _ in 0..BATCHES {
        let bad = f.r.one_in(4);
        let changes = generate::changes(&mut f.r, &f.w, bad);
        f.batch(changes)?;
        f.state(&all, &all)?;
    }
    Ok(())
}

/// 256 vertices, 2,048 edges with twins and four landmarks, opened; then 1,024 deletes; as many inserts of the pairs that went, every third of a twin of an
/// edge that stayed; and 1,024 updates in the table that is full again: each third to more, to less and to what it is, which the others get too where their
/// pair has the weight already.
fn full(mut r: Random, counts: &mut Counts) -> Held {
    let w = generate::full_network(&mut r);
    let mut f = Followed { now: w.edges(), r, w, counts };
    let before = f.counts.batches;
    let (gone, stayed): (Vec<Edge>, Vec<Edge>) = f.now.chunks(2).map(|two| (two[0], two[1])).unzip();
    let sources = [77, f.w.landmarks[3]];
    let targets: Vec<u32> = (0..256).step_by(15).collect();
    f.open()?;
    f.state(&sources, &targets)?;
    f.batch(gone.iter().map(|e| [2, e.tail, e.head, e.weight, 0]).collect())?;
    f.state(&sources, &targets)?;
    let again = gone.iter().zip(&stayed).enumerate().map(|(i, (a, b))| (501 + i as u32, if i % 3 == 0 { b } else { a }));
    f.batch(again.map(|(weight, e)| [1, e.tail, e.head, weight, 0]).collect())?;
    f.state(&sources, &targets)?;
    let mut next = f.now.clone();
    let mut updates: Vec<Change> = Vec::new();
    for i in (1..next.len()).step_by(2) {
        let e = next[i];
        let other = Edge { weight: [2 * e.weight, 1 + e.weight / 2, e.weight][updates.len() % 3], ..e };
        if !next.contains(&other) {
            next[i] = other;
        }
        updates.push([3, e.tail, e.head, next[i].weight, e.weight]);
    }
    f.batch(updates)?;
    let accepted = f.counts.batches - before;
    hold(&f.drawn(Call::Settled), accepted == 3 && f.now.len() == reference::MOST_EDGES, "a good batch is refused")?;
    f.state(&sources, &targets)
}

/// Every history of a seed; the number of the first that fails.
pub fn all(seed: u64, counts: &mut Counts) -> Result<(), (u64, Box<Failure>)> {
    for number in 0..=HISTORIES {
        let r = Random::new(seed.wrapping_mul(0x9e37_79b9_7f4a_7c15) ^ number.wrapping_mul(0xd1b5_4a32_d192_ed03));
        counts.histories += 1;
        if number == HISTORIES { full(r, counts) } else { drawn(r, counts) }.map_err(|failure| (number, failure))?;
    }
    Ok(())
}
