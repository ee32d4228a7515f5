//! What a preview shows, held to what comes of it: to the archive's own calls, to best values, and to where routes come and go.

use crate::case::{Call, Case};
use crate::reference::{self, Edge, Network};
use crate::{check, Counts, Failure};

/// Says whether the two entries of each vertex are true of its words before and after.
pub fn is_true(shown: &Case, before: &[u32], after: &[u32]) -> bool {
    let none = reference::no_route(shown.property);
    (0..before.len()).all(|v| {
        let (a, b, by) = (before[v], after[v], shown.moves[v]);
        match shown.effects[v] {
            0 => a == b && by == 0,
            1 => a == none && b != none && by == 0,
            2 => a != none && b == none && by == 0,
            3 => a != b && a != none && b != none && i128::from(a) + i128::from(by) == i128::from(b),
            _ => false,
        }
    })
}

/// Says where the two lists of a preview are not those of the best values on the edges before and after the batch, or where 1 and 2 do not stand exactly
/// where a route came and went, which is reckoned without values.
pub fn unlike_after(shown: &Case, old: &[Edge], new: &[Edge]) -> Option<&'static str> {
    let (n, p, source) = (shown.network.n, shown.property, shown.source);
    let [before, after] = [old, new].map(|edges| reference::best_values(p, n, edges, source));
    if !is_true(shown, &before, &after) {
        return Some("a preview is not what becomes of the best values");
    }
    let [had, has] = [old, new].map(|edges| reference::reached(n, edges, source));
    let routes = (0..n as usize).all(|v| (shown.effects[v] == 1, shown.effects[v] == 2) == (!had[v] && has[v], had[v] && !has[v]));
    (!routes).then_some("a preview does not show where a route comes and goes")
}

/// The digest of a preview's lists counts their entries: all that are not 0, since a vertex that moved did so for the better or the worse.
pub fn digest(shown: &Case, salt: u32, counts: &mut Counts) -> Result<(), Box<Failure>> {
    let c = Case { call: Call::Digest, ..shown.clone() };
    let (number, after) = check(&c, salt, counts)?;
    let n = shown.network.n;
    let entries = shown.effects[..n as usize].iter().filter(|&&e| e != 0).count() as u64;
    let told = &after.reply;
    let right = number == 0 && told[..4].iter().sum::<u64>() == entries && (told[4] == u64::from(n)) == (told[1] + told[3] == 0);
    if right {
        return Ok(());
    }
    Err(Box::new(Failure { case: c, said: "a digest does not count a preview's entries".into() }))
}

/// Holds a preview that was not damaged to what comes of it by the archive: the batch on a copy, which is judged as the preview was, and a query before
/// and after; where the edges as they are now are given, to best values too. Then it is digested.
pub fn bear_out(c: &Case, number: u32, shown: &Case, now: Option<&[Edge]>, salt: u32, counts: &mut Counts) -> Result<(), Box<Failure>> {
    let hold = |right: bool, said: &str| if right { Ok(()) } else { Err(Box::new(Failure { case: c.clone(), said: said.into() })) };
    let mut batch = Case::new(Call::Batch, c.network.clone());
    batch.changes = c.changes.clone();
    let (said, applied) = check(&batch, salt, counts)?;
    hold(said == number && (number == 0 || applied.reply[0] == shown.reply[0]), "a batch is not judged as its preview was")?;
    if number != 0 {
        return Ok(());
    }
    let later = Network { count: applied.reply[0] as u32, ..applied.network };
    let mut answers = Vec::new();
    for w in [&c.network, &later] {
        let mut query = Case::new(Call::Query, w.clone());
        (query.property, query.source) = (c.property, c.source);
        (query.starts, query.settled) = (vec![0; w.n as usize], vec![0; w.n as usize]);
        let (number, after) = check(&query, salt, counts)?;
        hold(number == 0, "a query beside a preview is refused")?;
        answers.push(after.settled);
    }
    hold(is_true(shown, &answers[0], &answers[1]), "a preview is not what becomes of the settled words")?;
    if let Some(now) = now {
        let mut next = now.to_vec();
        let good = c.changes.iter().enumerate().all(|(i, &change)| reference::apply(c.network.n, &mut next, change, i).is_ok());
        hold(good, "an accepted preview has a change that is to be turned back")?;
        let said = unlike_after(shown, now, &next);
        hold(said.is_none(), said.unwrap_or_default())?;
    }
    counts.previews += 1;
    digest(shown, salt, counts)
}
