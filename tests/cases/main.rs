//! Cases worked by hand from document 01 and from requests One, Two, Four and Five of document 02, one a line, in networks.txt and texts.txt; README.md has their
//! layout. Each is made through the archive and through the reference of tests/differential: either must answer what the line says, and both must leave
//! the same in every lent list. Prints how many cases of each group did, and each line that did not.

#[path = "../differential/src/calls.rs"]
mod calls;
#[allow(dead_code)]
#[path = "../differential/src/case.rs"]
mod case;
#[path = "../../bindings/plate_track.rs"]
mod plate_track;
#[allow(dead_code)]
#[path = "../differential/src/reference.rs"]
mod reference;

use case::{difference, Call, Case};
use reference::{Network, M};

const FILES: [(&str, &str); 2] = [("networks.txt", include_str!("networks.txt")), ("texts.txt", include_str!("texts.txt"))];

/// The words that a line may say of what is lent; those of the second list have an index.
const NAMES: &str = " full widest twins ascending descending n count landmarks tails heads weights forward backward rows open delete property source schedule starts settled changes k side landmark room said lines sources target vertices marks figures effects moves reply ";
const PLACED: &str = " record change forward backward effects moves ";

// ---- lines

/// A word of a line: `full`, `n=4`, `record4=3,2,1`, or a text in quotes, whose name is empty.
struct Word {
    name: String,
    index: Option<usize>,
    value: String,
}

struct Line {
    place: String,
    call: Call,
    before: Vec<u8>,
    set: Vec<Word>,
    said: Vec<Word>,
}

/// Lines that hold together or not at all.
struct Together {
    group: String,
    lines: Vec<Line>,
}

fn call_named(name: &str) -> Option<Call> {
    Some(match name {
        "open" => Call::Open,
        "query" => Call::Query,
        "batch" => Call::Batch,
        "settled" => Call::Settled,
        "choose" => Call::Choose,
        "row" => Call::Row,
        "read" => Call::Read,
        "write" => Call::Write,
        "sources" => Call::ReadSources,
        "route" => Call::Route,
        "preview" => Call::Preview,
        "digest" => Call::Digest,
        _ => return None,
    })
}

/// A number of 64 bits, with a sign where it is below 0.
fn signed(word: &str) -> i64 {
    if word == "M" {
        return i64::from(M);
    }
    word.parse().unwrap_or_else(|_| panic!("no number: {word:?}"))
}

/// `0*7,4` is seven zeros and a 4; `1..3` is 1, 2, 3, and `3..1` the same downward.
fn signed_numbers(list: &str) -> Vec<i64> {
    let part = |p: &str| match (p.split_once('*'), p.split_once("..")) {
        (Some((v, k)), _) => vec![signed(v); number(k) as usize],
        (_, Some((a, b))) if signed(a) > signed(b) => (signed(b)..=signed(a)).rev().collect(),
        (_, Some((a, b))) => (signed(a)..=signed(b)).collect(),
        _ => vec![signed(p)],
    };
    list.split(',').filter(|p| !p.is_empty()).flat_map(part).collect()
}

/// A number that is a word.
fn as_word(x: i64) -> u32 {
    x.try_into().unwrap_or_else(|_| panic!("no word: {x}"))
}

fn number(word: &str) -> u32 {
    as_word(signed(word))
}

fn numbers(list: &str) -> Vec<u32> {
    signed_numbers(list).into_iter().map(as_word).collect()
}

fn hex(digit: Option<u8>) -> u8 {
    char::from(digit.expect("two digits")).to_digit(16).expect("a hexadecimal digit") as u8
}

fn bytes(quoted: &str) -> Vec<u8> {
    let mut out = Vec::new();
    let mut rest = quoted.strip_prefix('"').and_then(|q| q.strip_suffix('"')).expect("a text in quotes").bytes();
    while let Some(b) = rest.next() {
        out.push(match b {
            b'\\' => match rest.next().expect("a byte after the backslash") {
                b'n' => b'\n',
                b'r' => b'\r',
                b't' => b'\t',
                b'0' => 0,
                b'x' => (hex(rest.next()) << 4) | hex(rest.next()),
                other => other,
            },
            _ => b,
        });
    }
    out
}

fn words(line: &str) -> Vec<Word> {
    let mut tokens = vec![String::new()];
    let mut quoted = false;
    for c in line.chars() {
        quoted ^= c == '"';
        if c == ' ' && !quoted {
            tokens.push(String::new());
        } else {
            tokens.last_mut().unwrap().push(c);
        }
    }
    let word = |token: String| {
        if token.starts_with('"') {
            return Word { name: String::new(), index: None, value: token };
        }
        let Some((name, value)) = token.split_once('=') else {
            return Word { name: token, index: None, value: String::new() };
        };
        let plain = name.trim_end_matches(|c: char| c.is_ascii_digit());
        Word { name: plain.into(), index: name[plain.len()..].parse().ok(), value: value.into() }
    };
    tokens.into_iter().filter(|t| !t.is_empty()).map(word).collect()
}

/// The cases of a file: those below a heading `== CALL, ..: TITLE` are made for each of these calls; below `== TITLE` a line begins with its call.
fn cases(name: &str, file: &str) -> Vec<Together> {
    let mut found: Vec<Together> = Vec::new();
    let (mut calls, mut title, mut before) = (Vec::new(), "", Vec::new());
    for (i, line) in file.lines().enumerate() {
        let place = format!("{name}:{}", i + 1);
        if let Some(heading) = line.strip_prefix("== ") {
            let (list, rest) = heading.split_once(": ").unwrap_or(("", heading));
            calls = list.split(", ").filter(|c| !c.is_empty()).collect();
            (title, before) = (rest, Vec::new());
        } else if let Some(text) = line.strip_prefix("before ") {
            before = bytes(text);
        } else if !line.is_empty() && !line.starts_with('#') {
            let (joined, line) = line.strip_prefix("& ").map_or((false, line), |rest| (true, rest));
            assert!(calls.is_empty() || !joined, "{place}: what goes on names its call");
            let (own, line) = if calls.is_empty() { line.split_once(' ').unwrap() } else { ("", line) };
            for call in if calls.is_empty() { vec![own] } else { calls.clone() } {
                let group = if own.is_empty() { format!("{call} {title}") } else { title.into() };
                let mut set = words(line);
                let colon = set.iter().position(|w| w.name == ":").unwrap_or_else(|| panic!("{place}: no colon"));
                let said = set.split_off(colon).into_iter().skip(1).collect();
                for w in set.iter().filter(|w| !w.name.is_empty()) {
                    let known = if w.index.is_some() { PLACED } else { NAMES };
                    assert!(known.contains(&format!(" {} ", w.name)), "{place}: no word {:?}", w.name);
                }
                let call = call_named(call).unwrap_or_else(|| panic!("{place}: no call {call:?}"));
                if !joined {
                    found.push(Together { group, lines: vec![] });
                }
                found.last_mut().unwrap().lines.push(Line { place: place.clone(), call, before: before.clone(), set, said });
            }
        }
    }
    found
}

// ---- what is lent

const DECK_A: [[u32; 3]; 5] = [[0, 1, 4], [0, 3, 9], [1, 2, 4], [2, 1, 4], [3, 2, 2]];

/// Record `i` of the full table: eight edges of weight 4 out of each vertex, to the lowest ones.
fn full_record(i: u32) -> [u32; 3] {
    let (t, j) = (i / 8, i % 8);
    [t, if j < t { j } else { j + 1 }, 4]
}

impl Line {
    fn value(&self, name: &str) -> Option<&str> {
        self.set.iter().find(|w| w.name == name && w.index.is_none()).map(|w| w.value.as_str())
    }

    fn has(&self, name: &str) -> bool {
        self.value(name).is_some()
    }

    fn number(&self, name: &str, usual: u32) -> u32 {
        self.value(name).map_or(usual, number)
    }

    /// The words that have this name and an index.
    fn placed_signed<'a>(&'a self, name: &'a str) -> impl Iterator<Item = (usize, Vec<i64>)> + 'a {
        self.set.iter().filter(move |w| w.name == name).filter_map(|w| w.index.map(|i| (i, signed_numbers(&w.value))))
    }

    fn placed<'a>(&'a self, name: &'a str) -> impl Iterator<Item = (usize, Vec<u32>)> + 'a {
        self.placed_signed(name).map(|(i, list)| (i, list.into_iter().map(as_word).collect()))
    }

    fn records(&self) -> Vec<[u32; 3]> {
        let mut records: Vec<[u32; 3]> = if self.has("full") {
            (0..2_049).map(full_record).collect()
        } else if self.has("widest") {
            (99..256).flat_map(|t| (99..256).filter(move |&h| h != t).map(move |h| [t, h, 65_535])).take(2_048).collect()
        } else if self.has("twins") {
            (1..2_050).map(|w| [0, 1, w]).collect()
        } else if self.has("ascending") {
            (0..255).map(|t| [t, t + 1, 65_535]).collect()
        } else if self.has("descending") {
            (1..256).map(|t| [t, t - 1, 65_535]).collect()
        } else {
            DECK_A.to_vec()
        };
        records.resize(2_049, [9; 3]);
        for (i, r) in self.placed("record") {
            records[i] = r.try_into().unwrap();
        }
        records
    }

    /// Deck A with landmark 0, or the table that the line names, but for what it says beside. Row words are 7.
    fn network(&self) -> Network {
        let (n, count, rows) = match ["full", "widest", "ascending", "descending", "twins"].iter().position(|name| self.has(name)) {
            Some(0 | 1) => (256, 2_048, 1_280),
            Some(2 | 3) => (256, 255, 1_280),
            Some(_) => (2, 2_048, 10),
            None => (4, 5, 20),
        };
        let records = self.records();
        let column = |name: &str, i: usize| records.iter().map(|r| r[i]).take(self.number(name, 2_048) as usize).collect();
        let row_list = |name: &str| vec![7; self.number(name, self.number("rows", rows)) as usize];
        Network {
            n: self.number("n", n),
            landmarks: self.value("landmarks").map_or(vec![0], numbers),
            tails: column("tails", 0),
            heads: column("heads", 1),
            weights: column("weights", 2),
            count: self.number("count", count),
            forward: row_list("forward"),
            backward: row_list("backward"),
        }
    }

    /// Deletes and inserts of record 0 in turn, but for those that the line says.
    fn changes(&self) -> Vec<[u32; 5]> {
        let [t, h, w] = self.records()[0];
        let mut changes: Vec<[u32; 5]> = (0..self.number("changes", 2)).map(|i| [2 - i % 2, t, h, w, 0]).collect();
        for (i, c) in self.placed("change") {
            changes[i] = c.try_into().unwrap();
        }
        changes
    }

    /// What is read: the text in quotes, or a p line that says `said` and then `lines` lines.
    fn text(&self, n: u32) -> Vec<u8> {
        if let Some(quoted) = self.value("") {
            return [&self.before[..], &bytes(quoted)].concat();
        }
        let (said, lines) = (self.number("said", 0), self.number("lines", 0) as usize);
        if self.call == Call::ReadSources {
            return format!("p aux sp ss {said}\n{}", "s 3\n".repeat(lines)).into_bytes();
        }
        let arcs: String = self.records()[..lines].iter().map(|[t, h, w]| format!("a {} {} {w}\n", t + 1, h + 1)).collect();
        format!("p sp {n} {said}\n{arcs}").into_bytes()
    }

    /// All that the call takes. Calls that come before it are made by the same side.
    fn made(&self, side: Side) -> Result<Case, String> {
        let mut w = self.network();
        if self.has("open") {
            w = accepted(side, &Case::new(Call::Open, w))?.network;
        }
        if let Some(edge) = self.value("delete").map(numbers) {
            let mut first = Case::new(Call::Batch, w);
            first.changes = vec![[2, edge[0], edge[1], edge[2], 0]];
            let after = accepted(side, &first)?;
            w = Network { count: after.reply[0] as u32, ..after.network };
        }
        for (i, word) in self.placed("forward") {
            w.forward[i] = word[0];
        }
        for (i, word) in self.placed("backward") {
            w.backward[i] = word[0];
        }
        let length = |name: &str| self.number(name, w.n.min(257)) as usize;
        let lists = ["starts", "settled", "vertices", "marks", "figures", "effects"].map(|name| vec![7; length(name)]);
        let moves = vec![-7; length("moves")];
        let mut c = Case::new(self.call, w);
        [c.starts, c.settled, c.vertices, c.marks, c.figures, c.effects] = lists;
        c.moves = moves;
        for (i, entries) in self.placed("effects") {
            c.effects[i..i + entries.len()].copy_from_slice(&entries);
        }
        for (i, entries) in self.placed_signed("moves") {
            c.moves[i..i + entries.len()].copy_from_slice(&entries);
        }
        c.reply.truncate(self.number("reply", 8) as usize);
        c.property = self.number("property", 1);
        c.source = self.number("source", 0);
        c.target = self.number("target", 2);
        c.schedule = self.value("schedule").map_or(vec![], numbers);
        c.k = self.number("k", 4);
        c.side = self.number("side", 0);
        c.landmark = self.number("landmark", 0);
        match self.call {
            Call::Batch | Call::Preview => c.changes = self.changes(),
            Call::Write => c.text = vec![7; self.number("room", 49) as usize],
            Call::Read => {
                c.text = self.text(c.network.n);
                for list in [&mut c.network.tails, &mut c.network.heads, &mut c.network.weights] {
                    list.fill(9);
                }
            }
            Call::ReadSources => {
                c.network.n = self.number("n", 3);
                c.text = self.text(c.network.n);
                c.sources = vec![9; self.number("sources", 256) as usize];
            }
            _ => {}
        }
        Ok(c)
    }

    /// What an outcome has that the line does not say.
    fn unlike(&self, before: &Case, (number_given, after): &Outcome) -> Option<String> {
        let (verdict, rest) = self.said.split_first().expect("what is expected");
        if verdict.name != "ok" {
            let mut kept = before.clone();
            // a reply list that is too short gets no place
            if kept.reply.len() >= 8 {
                kept.reply[0] = rest.first().map_or(0, |place| u64::from(number(&place.name)));
            }
            let said = number(&verdict.name);
            if *number_given != said || after.reply.first() != kept.reply.first() {
                return Some(format!("number {number_given}, reply {:?}", after.reply));
            }
            return (*after != kept).then(|| "refused, and a lent word is another".into());
        }
        if *number_given != 0 {
            return Some(format!("refused {number_given} at {}", after.reply[0]));
        }
        rest.iter().find_map(|w| match (w.name.as_str(), w.value.as_str()) {
            ("table", "") => {
                let records = self.records();
                let read = (0..after.reply[1] as usize).all(|i| [after.network.tails[i], after.network.heads[i], after.network.weights[i]] == records[i]);
                (!read).then(|| "other records".into())
            }
            (reply, "") if reply.starts_with(|c: char| c.is_ascii_digit()) => unlike_words("reply", 0, &signed_numbers(reply), &list(after, "reply"), None),
            (name, value) => {
                let want = if value.starts_with('"') { bytes(value).into_iter().map(i64::from).collect() } else { signed_numbers(value) };
                let was = w.index.is_none().then(|| list(before, name));
                unlike_words(name, w.index.unwrap_or(0), &want, &list(after, name), was)
            }
        })
    }
}

/// Where a list has other words than those wanted from an index on, or past them other words than it had.
fn unlike_words(name: &str, from: usize, want: &[i64], is: &[i64], was: Option<Vec<i64>>) -> Option<String> {
    let end = from + want.len();
    if is[from..end] != *want {
        return Some(format!("{name} from {from} on is {:?}", &is[from..end]));
    }
    was.filter(|was| was[end..] != is[end..]).map(|_| format!("{name} has other words past {end}"))
}

/// A list by its name, as plain numbers.
fn list(c: &Case, name: &str) -> Vec<i64> {
    let w = &c.network;
    let words = match name {
        "reply" => return c.reply.iter().map(|&x| x as i64).collect(),
        "text" => return c.text.iter().map(|&b| i64::from(b)).collect(),
        "moves" => return c.moves.clone(),
        "effects" => &c.effects,
        "starts" => &c.starts,
        "settled" => &c.settled,
        "sources" => &c.sources,
        "vertices" => &c.vertices,
        "marks" => &c.marks,
        "figures" => &c.figures,
        "tails" => &w.tails,
        "heads" => &w.heads,
        "weights" => &w.weights,
        "forward" => &w.forward,
        "backward" => &w.backward,
        _ => panic!("no list {name:?}"),
    };
    words.iter().map(|&x| i64::from(x)).collect()
}

// ---- the two sides

type Outcome = (u32, Case);
type Side = fn(&Case) -> Result<Outcome, String>;

fn by_archive(c: &Case) -> Result<Outcome, String> {
    calls::call(c, 0x5a3c_96e1)
}

fn by_reference(c: &Case) -> Result<Outcome, String> {
    Ok(c.expected())
}

fn accepted(side: Side, c: &Case) -> Result<Case, String> {
    match side(c)? {
        (0, after) => Ok(after),
        (number, _) => Err(format!("{:?} before it is refused {number}", c.call)),
    }
}

/// What is wrong with a line, by either side or between them.
fn fault(line: &Line) -> Option<String> {
    let made = |side: Side, name: &str| -> Result<Outcome, String> {
        let before = line.made(side)?;
        let outcome = side(&before)?;
        line.unlike(&before, &outcome).map_or(Ok(outcome), |said| Err(format!("{name}: {said}")))
    };
    match (made(by_archive, "the archive"), made(by_reference, "the reference")) {
        (Err(said), _) | (_, Err(said)) => Some(said),
        (Ok(real), Ok(expected)) => difference(&expected, &real).map(|said| format!("the sides differ: {said}")),
    }
}

fn main() {
    let mut groups: Vec<(String, u32, u32)> = Vec::new();
    for together in FILES.iter().flat_map(|(name, file)| cases(name, file)) {
        let mut good = true;
        for line in &together.lines {
            if let Some(said) = fault(line) {
                println!("{} {:?}: {said}", line.place, line.call);
                good = false;
            }
        }
        let at = groups.iter().position(|g| g.0 == together.group).unwrap_or_else(|| {
            groups.push((together.group.clone(), 0, 0));
            groups.len() - 1
        });
        groups[at].1 += u32::from(good);
        groups[at].2 += 1;
    }
    for (name, passed, tried) in &groups {
        println!("{name} {passed} of {tried}");
    }
    std::process::exit(i32::from(groups.iter().any(|g| g.1 != g.2)));
}
