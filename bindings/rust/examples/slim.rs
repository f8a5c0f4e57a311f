//! Uses one slim tape for several areas: the first stays on it, each later one goes behind it, is
//! taken off again, and so makes room for the next.

use wakkemosut::{Label, Refusal, Registry, Slim, Tape};

/// A neighbor's area with a metric of 10.
const FIRST: [u8; 5] = [0x12, 0x03, 0x00, 0x00, 0x0A];

/// The areas that come later, with metrics of 20 and 30.
const LATER: [[u8; 5]; 2] = [
    [0x12, 0x03, 0x00, 0x00, 0x14],
    [0x12, 0x03, 0x00, 0x00, 0x1E],
];

fn main() -> Result<(), Refusal> {
    let mut words = [0; Tape::slim_words_for(10)];
    let mut tape = Tape::slim_cleared(&mut words)?;
    tape.push(Registry::Neighbor, 100, &FIRST)?;
    let mark = tape.mark();
    for area in LATER {
        tape.push(Registry::Neighbor, 200, &area)?;
        println!("{} records: {}", tape.len(), metrics(&tape)?);
        tape.cut_back(mark)?;
        println!("{} records: {}", tape.len(), metrics(&tape)?);
    }
    Ok(())
}

/// The metrics that stand on a tape, each with its first octet.
fn metrics(tape: &Tape<'_, Slim>) -> Result<String, Refusal> {
    let records: Vec<_> = tape.records().collect::<Result<_, _>>()?;
    let metrics = records
        .iter()
        .filter(|record| record.label == Label::TeDefaultMetric);
    let texts = metrics.map(|metric| format!("{} at {}", metric.number, metric.octets.start));
    Ok(texts.collect::<Vec<_>>().join(", "))
}
