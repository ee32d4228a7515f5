//! values FOLDER..: each folder's name, and what the values program prints for its deck.gr and deck.ss, through bindings/plate_track.rs.

#[path = "../../bindings/plate_track.rs"]
mod plate_track;

use plate_track::*;
use std::fmt::Write;

/// A file's bytes; one that can't be opened is empty, and a long one refused.
fn bytes_of(folder: &str, name: &str) -> Result<Vec<u8>, Refused> {
    let text = std::fs::read(format!("{folder}/{name}")).unwrap_or_default();
    if text.len() > 65536 {
        return Err(Refused { number: SHORT, place: 0 });
    }
    Ok(text)
}

fn values(folder: &str) -> Result<String, Refused> {
    let mut reply = [0; REPLY_WORDS];
    let (mut tails, mut heads, mut weights) = ([0; MOST_EDGES], [0; MOST_EDGES], [0; MOST_EDGES]);
    read(&bytes_of(folder, "deck.gr")?, &mut tails, &mut heads, &mut weights, &mut reply)?;
    let (n, count) = (reply[READ_VERTICES] as u32, reply[READ_COUNT] as u32);
    let mut sources = [0; MOST_SOURCES];
    read_sources(&bytes_of(folder, "deck.ss")?, n, &mut sources, &mut reply)?;
    let sources = &sources[..reply[READ_SOURCES_COUNT] as usize];
    choose(n, &tails, &heads, &weights, count, MOST_LANDMARKS as u32, &mut reply)?;
    let landmarks: Vec<u32> = reply[CHOOSE_FIRST..][..reply[CHOOSE_COUNT] as usize].iter().map(|&v| v as u32).collect();
    let mut forward = vec![0; row_words(landmarks.len(), n as usize)];
    let mut backward = forward.clone();
    open(n, &landmarks, &tails, &heads, &weights, count, &mut forward, &mut backward, &mut reply)?;
    let mut said = "source station time handovers headroom worst reach\n".to_string();
    for &source in sources {
        let mut columns = Vec::new();
        for property in TIME..=REACH {
            let (mut starts, mut settled) = (vec![0; n as usize], vec![0; n as usize]);
            query(
                n, &landmarks, &tails, &heads, &weights, count, &forward, &backward, property, source, &[], &mut starts, &mut settled, &mut reply,
            )?;
            columns.push(settled);
        }
        for v in 0..n as usize {
            write!(said, "{} {}", source + 1, v + 1).unwrap();
            columns.iter().for_each(|column| write!(said, " {}", column[v]).unwrap());
            said.push('\n');
        }
    }
    Ok(said)
}

fn main() {
    for folder in std::env::args().skip(1) {
        println!("{folder}");
        match values(&folder) {
            Ok(said) => print!("{said}"),
            Err(refused) => println!("refused {} {}", refused.number, refused.place),
        }
    }
}
