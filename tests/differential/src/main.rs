//! Differential tests of the calls for C: each call is made through the archive and through the reference, on the same input; the
//! number, the reply and every lent list are compared, and the words beside each list are looked at.
//!
//!   differential short [SEED]          texts and histories, and 1,500,000 calls: about a minute
//!   differential long CALLS [SEED]     as many calls as said
//!   differential replay SEED SESSION   one session again, with each of its calls printed
//!   differential histories [SEED]      whole histories, at each state of which all is asked
//!   differential texts COUNT [SEED]    the generators of texts, against the reference alone
//!   differential vectors DIR           the reference's values program against DIR/*/{deck.gr,deck.ss,expected}

mod calls;
mod case;
mod generate;
mod histories;
#[path = "../../../bindings/plate_track.rs"]
mod plate_track;
mod previews;
mod random;
mod reference;
mod shrink;

use case::{describe, difference, Call, Case};
use random::Random;
use std::time::Instant;

/// The calls of the gate: about a minute.
const SHORT: u64 = 1_500_000;

/// The most vertices and the most edges at which every walk is listed.
const LISTED: (u32, u32) = (5, 24);

/// How many calls of each kind were accepted or refused with each number.
#[derive(Default)]
struct Counts {
    by: std::collections::BTreeMap<(String, u32), u64>,
    calls: u64,
    histories: u64,
    batches: u64,
    /// of these, on tables with twins
    twins: u64,
    updates: u64,
    listed: u64,
    previews: u64,
    /// the least and the greatest move that a preview showed
    moves: (i64, i64),
}

struct Failure {
    case: Case,
    said: String,
}

/// Makes a call both ways. What both say where they agree.
fn check(case: &Case, salt: u32, counts: &mut Counts) -> Result<(u32, Case), Box<Failure>> {
    let expected = case.expected();
    counts.calls += 1;
    let fail = |said: String| Box::new(Failure { case: case.clone(), said });
    let real = calls::call(case, salt).map_err(fail)?;
    if let Some(said) = difference(&expected, &real) {
        return Err(fail(said));
    }
    if case.call == Call::Route && matches!(real.0, 0 | 15) {
        let few = case.network.n <= LISTED.0 && case.network.count <= LISTED.1;
        if let Some(said) = unlike_best(real.0, &real.1, few) {
            return Err(fail(said.into()));
        }
        counts.listed += u64::from(few);
    }
    if case.call == Call::Preview && real.0 == 0 {
        let shown = &real.1.moves[..case.network.n as usize];
        counts.moves = shown.iter().fold(counts.moves, |(least, greatest), &by| (least.min(by), greatest.max(by)));
    }
    *counts.by.entry((format!("{:?}", case.call), real.0)).or_default() += 1;
    Ok(real)
}

/// What a call of a route that is accepted or refused with 15 says the value to be: that along the vertices and figures it wrote, none where these are no
/// edges of the table that lead from source to target; or the no-route word.
fn value_told(number: u32, after: &Case) -> Option<u32> {
    if number == 15 {
        return Some(reference::no_route(after.property));
    }
    let edges = after.network.edges();
    let vertices = &after.vertices[..after.reply[0] as usize];
    let route = reference::edges_along(vertices, &after.figures);
    let leads = vertices.first() == Some(&after.source) && vertices.last() == Some(&after.target) && route.iter().all(|e| edges.contains(e));
    leads.then(|| reference::value_along(after.property, &route))
}

/// Says where a route is not of the best value, which is reckoned without routes, or where the reference's two ways to it differ.
fn unlike_best(number: u32, after: &Case, few: bool) -> Option<&'static str> {
    let (n, p, edges) = (after.network.n, after.property, after.network.edges());
    let best = reference::best_values(p, n, &edges, after.source)[after.target as usize];
    if value_told(number, after) != Some(best) {
        return Some("the value along the route is not the best value");
    }
    if !few {
        return None;
    }
    let by_lengths = reference::route_by_lengths(p, n, &edges, after.source, after.target);
    let with_figures = by_lengths.map(|vertices| (reference::figures_by_parts(p, &edges, &vertices), vertices)).map(|(figures, vertices)| (vertices, figures));
    let listed = reference::route_by_listing(p, n, &edges, after.source, after.target);
    (with_figures != listed).then_some("the route by lengths is not the one by listing every walk")
}

fn kind(r: &mut Random) -> Call {
    match r.below(100) {
        0..=26 => Call::Query,
        27..=51 => Call::Batch,
        52..=59 => Call::Preview,
        60..=69 => Call::Route,
        70..=74 => Call::Settled,
        75..=78 => Call::Choose,
        79..=82 => Call::Row,
        83..=86 => Call::Open,
        87..=89 => Call::Digest,
        90..=93 => Call::Read,
        94..=96 => Call::Write,
        _ => Call::ReadSources,
    }
}

/// Says where rows or records differ from the network as it is now, reckoned from the changes alone.
fn unlike_now(w: &reference::Network, now: &[reference::Edge]) -> Option<String> {
    if w.edges() != now {
        return Some("the records are not those of the network as it is now".into());
    }
    let (forward, backward) = reference::best_rows(w.n, &w.landmarks, now);
    if w.forward[..forward.len()] != forward || w.backward[..backward.len()] != backward {
        return Some("a standing word is not the best value".into());
    }
    None
}

/// Document 02's drift limit: "one figure moved by d moves no station's time, headroom or worst stretch by more than d, and no handovers or reach".
fn drifts(before: &reference::Network, after: &reference::Network, d: u32) -> bool {
    let n = before.n as usize;
    let far = |(i, (a, b)): (usize, (&u32, &u32))| a.abs_diff(*b) > if matches!(i / n % 5 + 1, 1 | 3 | 4) { d } else { 0 };
    let rows = before.landmarks.len() * 5 * n;
    [(&before.forward, &after.forward), (&before.backward, &after.backward)].into_iter().any(|(a, b)| a.iter().zip(b).take(rows).enumerate().any(far))
}

/// One network, opened, changed and asked.
fn session(seed: u64, number: u64, counts: &mut Counts, tell: bool) -> Result<(), Box<Failure>> {
    let mut r = Random::new(seed.wrapping_mul(0x2545_f491_4f6c_dd1d) ^ number.wrapping_mul(0x9e6c_63d0_876a_68ef));
    let mut w = generate::network(&mut r);
    let arbitrary = r.one_in(6);
    let salt = r.next() as u32;
    if arbitrary {
        generate::arbitrary_rows(&mut r, &mut w);
    } else {
        let opening = generate::case(&mut r, Call::Open, &w, false);
        if tell {
            print!("{}", describe(&opening));
        }
        let (number, after) = check(&opening, salt, counts)?;
        if number != 0 {
            return Err(Box::new(Failure { case: opening, said: format!("a good opening is refused with {number}") }));
        }
        w = after.network;
        if let Some(said) = unlike_now(&w, &w.edges()).filter(|_| w.n <= 60) {
            return Err(Box::new(Failure { case: opening, said }));
        }
    }
    let mut now = w.edges();
    counts.histories += 1;
    let length = if w.n > 60 { r.below(6) } else { r.below(24) };
    for _ in 0..length {
        let call = kind(&mut r);
        let bad = r.one_in(4);
        let mut c = generate::case(&mut r, call, &w, bad);
        let damaged = r.one_in(4);
        if damaged {
            generate::damage(&mut r, &mut c);
        }
        if tell {
            print!("{}", describe(&c));
        }
        let (number, after) = check(&c, salt, counts)?;
        if call == Call::Preview && !damaged {
            previews::bear_out(&c, number, &after, (!arbitrary).then_some(&now[..]), salt, counts)?;
        }
        if damaged || number != 0 {
            continue;
        }
        let fail = |said: &str| Box::new(Failure { case: c.clone(), said: said.into() });
        if call == Call::Batch {
            if let ([[3, _, _, weight, old]], false) = (&c.changes[..], arbitrary) {
                if drifts(&w, &after.network, old.abs_diff(*weight)) {
                    return Err(fail("an update moved a word by more than its weight moved"));
                }
            }
            counts.updates += c.changes.iter().filter(|change| change[0] == 3).count() as u64;
            counts.twins += u64::from(generate::has_twins(&now));
            for (i, &change) in c.changes.iter().enumerate() {
                if reference::apply(w.n, &mut now, change, i).is_err() {
                    return Err(fail("an accepted batch has a change that is to be turned back"));
                }
            }
            w = after.network;
            w.count = after.reply[0] as u32;
            counts.batches += 1;
            if w.n <= 60 && !arbitrary {
                if let Some(said) = unlike_now(&w, &now) {
                    return Err(fail(&said));
                }
            }
        }
        if call == Call::Query && !arbitrary {
            let best = reference::best_values(c.property, w.n, &now, c.source);
            if after.settled[..w.n as usize] != best {
                return Err(fail("a settled word is not the best value"));
            }
        }
    }
    Ok(())
}

fn report(counts: &Counts, began: Instant) {
    let took = began.elapsed().as_secs_f64();
    println!(
        "{} calls on {} networks, {} batches accepted with {} updates, {} of tables with twins, {} routes listed, {} previews borne out, moves from {} to {}, {:.1} s, {:.0} calls a second",
        counts.calls, counts.histories, counts.batches, counts.updates, counts.twins, counts.listed, counts.previews, counts.moves.0, counts.moves.1, took, counts.calls as f64 / took
    );
    let mut kinds: Vec<&str> = counts.by.keys().map(|k| k.0.as_str()).collect();
    kinds.dedup();
    for kind in kinds {
        let numbers: Vec<String> = counts.by.iter().filter(|(k, _)| k.0 == kind).map(|(k, v)| if k.1 == 0 { format!("accepted {v}") } else { format!("{}: {v}", k.1) }).collect();
        println!("  {kind}: {}", numbers.join(", "));
    }
}

/// Says where a session or a history went wrong, and writes the call that did, made small.
fn tell(seed: u64, what: &str, number: u64, failure: &Failure) {
    println!("{what} {number}: {}", failure.said);
    let small = shrink::smallest(&failure.case);
    let name = format!("failing-{what}-{seed}-{number}.txt");
    let made = shrink::fault(&small).unwrap_or_else(|| format!("only in its {what}"));
    let text = format!("seed {seed} {what} {number}\nas met: {}\nmade small: {made}\n{}", failure.said, describe(&small));
    print!("{text}");
    if std::fs::write(&name, &text).is_ok() {
        println!("written to {name}");
    }
}

fn run(seed: u64, calls: u64) -> bool {
    println!("seed {seed}");
    let began = Instant::now();
    let mut counts = Counts::default();
    let mut number = 0;
    while counts.calls < calls {
        if let Err(failure) = session(seed, number, &mut counts, false) {
            tell(seed, "session", number, &failure);
            return false;
        }
        number += 1;
    }
    report(&counts, began);
    true
}

fn histories(seed: u64) -> bool {
    println!("histories, seed {seed}");
    let began = Instant::now();
    let mut counts = Counts::default();
    if let Err((number, failure)) = histories::all(seed, &mut counts) {
        tell(seed, "history", number, &failure);
        return false;
    }
    report(&counts, began);
    true
}

/// The generators of texts against the reference alone: a good text is read as the network that it was made from, written text is read
/// back, and a place is a line of the text or the one after it.
fn texts(seed: u64, number: u64) -> bool {
    let mut refused = 0;
    for i in 0..number {
        let mut r = Random::new(seed ^ i.wrapping_mul(0x9e6c_63d0_876a_68ef));
        let w = generate::network(&mut r);
        let good = generate::network_text(&mut r, &w, false);
        if reference::parse_network(&good) != Ok((w.n, w.edges())) || reference::parse_network(&reference::print_network(w.n, &w.edges())) != Ok((w.n, w.edges())) {
            println!("text {i}: a good text is not read as it was made: {:?}", String::from_utf8_lossy(&good));
            return false;
        }
        for bad in [generate::network_text(&mut r, &w, true), generate::source_text(&mut r, w.n, true)] {
            let lines = bad.iter().filter(|&&b| b == b'\n').count();
            for place in [reference::parse_network(&bad).err(), reference::parse_sources(&bad, w.n).err()].into_iter().flatten() {
                refused += 1;
                if place < 1 || place > lines + 1 {
                    println!("text {i}: place {place} of {lines} lines");
                    return false;
                }
            }
        }
    }
    println!("texts: {number} good ones read as they were made, {refused} refusals within their lines");
    true
}

fn vectors(dir: &str) -> bool {
    let mut names: Vec<_> = std::fs::read_dir(dir).expect("the folder of vectors").map(|e| e.unwrap().path()).filter(|p| p.is_dir()).collect();
    names.sort();
    let mut failed = 0;
    for path in &names {
        let file = |name: &str| std::fs::read(path.join(name)).unwrap_or_default();
        if reference::values(&file("deck.gr"), &file("deck.ss")) != file("expected") {
            println!("{}: not what is expected", path.display());
            failed += 1;
        }
    }
    println!("vectors: {} agree, {failed} differ", names.len() - failed);
    failed == 0 && !names.is_empty()
}

fn main() {
    let words: Vec<String> = std::env::args().skip(1).collect();
    let number = |i: usize| words.get(i).and_then(|w| w.parse::<u64>().ok());
    let good = match words.first().map(String::as_str) {
        Some("short") => {
            let seed = number(1).unwrap_or(1);
            texts(seed, 2_000) && histories(seed) && run(seed, SHORT)
        }
        Some("long") => {
            let calls = number(1).expect("long CALLS [SEED]");
            run(number(2).unwrap_or(1), calls)
        }
        Some("replay") => {
            let (seed, session_number) = (number(1).expect("replay SEED SESSION"), number(2).expect("replay SEED SESSION"));
            match session(seed, session_number, &mut Counts::default(), true) {
                Ok(()) => true,
                Err(f) => {
                    println!("{}", f.said);
                    false
                }
            }
        }
        Some("histories") => histories(number(1).unwrap_or(1)),
        Some("texts") => texts(number(2).unwrap_or(1), number(1).expect("texts COUNT [SEED]")),
        Some("vectors") => vectors(words.get(1).expect("vectors DIR")),
        _ => {
            println!("differential short [SEED] | long CALLS [SEED] | replay SEED SESSION | histories [SEED] | texts COUNT [SEED] | vectors DIR");
            false
        }
    };
    println!("{}", if good { "differential: ok" } else { "differential: FAILED" });
    std::process::exit(i32::from(!good));
}
