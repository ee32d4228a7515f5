//! One call with all that it takes, and what the reference says of it.

use crate::reference::{self, Change, Network};

#[derive(Clone, Copy, Debug, PartialEq, Eq)]
pub enum Call {
    Open,
    Query,
    Batch,
    Settled,
    Choose,
    Row,
    Read,
    Write,
    ReadSources,
    Route,
    Preview,
    Digest,
}

/// Every list that any call takes; a call reads and writes its own.
#[derive(Clone, Debug, PartialEq, Eq)]
pub struct Case {
    pub call: Call,
    pub network: Network,
    pub property: u32,
    pub source: u32,
    pub schedule: Vec<u32>,
    pub starts: Vec<u32>,
    pub settled: Vec<u32>,
    pub changes: Vec<Change>,
    pub k: u32,
    pub side: u32,
    pub landmark: u32,
    pub text: Vec<u8>,
    pub sources: Vec<u32>,
    pub target: u32,
    pub vertices: Vec<u32>,
    pub marks: Vec<u32>,
    pub figures: Vec<u32>,
    pub effects: Vec<u32>,
    pub moves: Vec<i64>,
    pub reply: Vec<u64>,
}

impl Case {
    pub fn new(call: Call, network: Network) -> Case {
        Case {
            call,
            network,
            property: 1,
            source: 0,
            schedule: vec![],
            starts: vec![],
            settled: vec![],
            changes: vec![],
            k: 1,
            side: 0,
            landmark: 0,
            text: vec![],
            sources: vec![],
            target: 0,
            vertices: vec![],
            marks: vec![],
            figures: vec![],
            effects: vec![],
            moves: vec![],
            reply: vec![7; 8],
        }
    }

    /// Runs the reference: the number, and every list as it is then.
    pub fn expected(&self) -> (u32, Case) {
        let mut c = self.clone();
        // a reply list that is too short decides before anything is looked at
        if c.reply.len() < 8 {
            return (2, c);
        }
        let answer = match c.call {
            Call::Open => reference::open(&mut c.network),
            Call::Query => reference::query(&c.network, c.property, c.source, &c.schedule, &mut c.starts, &mut c.settled),
            Call::Batch => reference::batch(&mut c.network, &c.changes),
            Call::Settled => reference::settled(&c.network),
            Call::Choose => reference::choose(&c.network, c.k),
            Call::Row => reference::row(&c.network, c.side, c.landmark, c.property),
            Call::Read => reference::read(&c.text, &mut c.network.tails, &mut c.network.heads, &mut c.network.weights),
            Call::Write => reference::write(&c.network, &mut c.text),
            Call::ReadSources => reference::read_sources(&c.text, c.network.n, &mut c.sources),
            Call::Route => reference::route(&c.network, c.property, c.source, c.target, &mut c.vertices, &mut c.marks, &mut c.figures),
            Call::Preview => reference::preview(&c.network, &c.changes, c.property, c.source, &mut c.effects, &mut c.moves),
            Call::Digest => reference::digest(c.network.n, c.property, &c.effects, &c.moves),
        };
        match answer {
            Ok(words) => {
                c.reply[..words.len()].copy_from_slice(&words);
                (0, c)
            }
            Err(r) => {
                c.reply[0] = r.place;
                (r.number, c)
            }
        }
    }
}

/// What two outcomes differ in, in a few words.
pub fn difference(expected: &(u32, Case), real: &(u32, Case)) -> Option<String> {
    if expected == real {
        return None;
    }
    let mut told = Vec::new();
    if expected.0 != real.0 {
        told.push(format!("number {} expected, {} given", expected.0, real.0));
    }
    let (a, b) = (&expected.1, &real.1);
    fn list<T: PartialEq + std::fmt::Debug>(told: &mut Vec<String>, name: &str, a: &[T], b: &[T]) {
        if let Some(i) = (0..a.len()).find(|&i| a[i] != b[i]) {
            told.push(format!("{name}[{i}]: {:?} expected, {:?} given", a[i], b[i]));
        }
    }
    list(&mut told, "reply", &a.reply, &b.reply);
    list(&mut told, "landmarks", &a.network.landmarks, &b.network.landmarks);
    list(&mut told, "tails", &a.network.tails, &b.network.tails);
    list(&mut told, "heads", &a.network.heads, &b.network.heads);
    list(&mut told, "weights", &a.network.weights, &b.network.weights);
    list(&mut told, "forward", &a.network.forward, &b.network.forward);
    list(&mut told, "backward", &a.network.backward, &b.network.backward);
    list(&mut told, "schedule", &a.schedule, &b.schedule);
    list(&mut told, "starts", &a.starts, &b.starts);
    list(&mut told, "settled", &a.settled, &b.settled);
    list(&mut told, "changes", &a.changes, &b.changes);
    list(&mut told, "text", &a.text, &b.text);
    list(&mut told, "sources", &a.sources, &b.sources);
    list(&mut told, "vertices", &a.vertices, &b.vertices);
    list(&mut told, "marks", &a.marks, &b.marks);
    list(&mut told, "figures", &a.figures, &b.figures);
    list(&mut told, "effects", &a.effects, &b.effects);
    list(&mut told, "moves", &a.moves, &b.moves);
    Some(told.join("; "))
}

/// A case in a form that a person can read: edges as triples, zeros at the end of a list left out.
pub fn describe(c: &Case) -> String {
    fn short<T: Copy + PartialEq + std::fmt::Debug>(list: &[T]) -> String {
        match list.last() {
            None => "[]".into(),
            Some(&last) => {
                let kept = list.iter().rposition(|&x| x != last).map_or(0, |i| i + 1);
                if list.len() - kept < 4 {
                    return format!("{list:?}");
                }
                format!("{:?} and {} times {:?}", &list[..kept], list.len() - kept, last)
            }
        }
    }
    let w = &c.network;
    let mut s = format!("call {:?}\nn {} count {} landmarks {:?}\n", c.call, w.n, w.count, w.landmarks);
    for (name, list) in [("tails", &w.tails), ("heads", &w.heads), ("weights", &w.weights), ("forward", &w.forward), ("backward", &w.backward)] {
        s += &format!("{name} ({} words) {}\n", list.len(), short(list));
    }
    s += &format!("property {} source {} target {} k {} side {} landmark {}\n", c.property, c.source, c.target, c.k, c.side, c.landmark);
    s += &format!("schedule ({}) {}\n", c.schedule.len(), short(&c.schedule));
    s += &format!("changes ({}) {}\n", c.changes.len(), short(&c.changes));
    s += &format!("starts ({}), settled ({}), sources ({}), reply ({}) {:?}\n", c.starts.len(), c.settled.len(), c.sources.len(), c.reply.len(), c.reply);
    for (name, list) in [("vertices", &c.vertices), ("marks", &c.marks), ("figures", &c.figures)] {
        s += &format!("{name} ({}) {}\n", list.len(), short(list));
    }
    s += &format!("effects ({}) {}\nmoves ({}) {}\n", c.effects.len(), short(&c.effects), c.moves.len(), short(&c.moves));
    s += &format!("text ({} bytes) {:?}\n", c.text.len(), String::from_utf8_lossy(&c.text));
    s
}
