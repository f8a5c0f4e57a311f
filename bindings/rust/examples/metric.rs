//! Reads the metric out of a neighbor's area.

use wakkemosut::{Label, Refusal, Registry, Tape, most_records};

fn main() -> Result<(), Refusal> {
    let area = [0x12, 0x03, 0x00, 0x00, 0x0A];
    let mut words = vec![0; Tape::words_for(most_records(area.len()))];
    let mut tape = Tape::cleared(&mut words)?;
    tape.push(Registry::Neighbor, 100, &area)?;
    for record in tape.records() {
        let record = record?;
        if record.label == Label::TeDefaultMetric {
            println!("metric {}, octets {:?}", record.number, record.octets);
        }
    }
    Ok(())
}
