//! A failing call made small: parts are left out one by one while the call still fails.

use crate::calls;
use crate::case::{difference, Case};

/// What is wrong with a call, if anything.
pub fn fault(case: &Case) -> Option<String> {
    match calls::call(case, 12_345) {
        Err(said) => Some(said),
        Ok(real) => difference(&case.expected(), &real),
    }
}

/// The case without record `i` of its table.
fn without_record(case: &Case, i: usize) -> Case {
    let mut c = case.clone();
    let w = &mut c.network;
    let count = w.count as usize;
    if i < count && [&w.tails, &w.heads, &w.weights].iter().all(|l| l.len() >= count) {
        for list in [&mut w.tails, &mut w.heads, &mut w.weights] {
            list.remove(i);
            list.push(0);
        }
        w.count -= 1;
    }
    c
}

/// Every case with one thing less.
fn smaller(case: &Case) -> Vec<Case> {
    let mut found = Vec::new();
    let mut less = |change: &dyn Fn(&mut Case)| {
        let mut c = case.clone();
        change(&mut c);
        found.push(c);
    };
    less(&|c| c.changes.truncate(c.changes.len() / 2));
    less(&|c| c.schedule.truncate(c.schedule.len() / 2));
    less(&|c| c.text.truncate(c.text.len() / 2));
    for i in 0..case.changes.len().min(40) {
        less(&|c| {
            c.changes.remove(i);
        });
    }
    for i in 0..case.schedule.len().min(40) {
        less(&|c| {
            c.schedule.remove(i);
        });
    }
    less(&|c| c.effects.truncate(c.network.n as usize));
    less(&|c| c.moves.truncate(c.network.n as usize));
    for i in 0..case.effects.len().min(40) {
        less(&|c| c.effects[i] = 0);
    }
    for i in 0..case.moves.len().min(40) {
        less(&|c| c.moves[i] = 0);
    }
    let breaks: Vec<usize> = (0..case.text.len()).filter(|&i| case.text[i] == b'\n').collect();
    for (j, &end) in breaks.iter().enumerate().take(60) {
        let start = if j == 0 { 0 } else { breaks[j - 1] + 1 };
        less(&|c| drop(c.text.drain(start..=end)));
    }
    for i in 0..case.network.forward.len().min(60) {
        less(&|c| c.network.forward[i] = 0);
    }
    for i in 0..case.network.backward.len().min(60) {
        less(&|c| c.network.backward[i] = 0);
    }
    let records = (case.network.count as usize).min(60);
    found.extend((0..records).map(|i| without_record(case, i)));
    found
}

/// The case that is left when nothing more can be left out.
pub fn smallest(case: &Case) -> Case {
    let mut best = case.clone();
    if fault(&best).is_none() {
        return best;
    }
    while let Some(c) = smaller(&best).into_iter().find(|c| *c != best && fault(c).is_some()) {
        best = c;
    }
    best
}
