//! A trace file in parts that can be changed and put together again.

use crate::file::{self, RECORD};
use crate::model::Event;

pub type Record = [u8; RECORD];

/// A file whose contents are right; its records may be good or bad.
#[derive(Clone)]
pub struct Sheet {
    pub tablets: u8,
    pub values: u8,
    pub bodies: Vec<Vec<Record>>,
}

impl Sheet {
    /// Takes a file apart, if its contents are right.
    pub fn decode(bytes: &[u8]) -> Option<Sheet> {
        let contents = file::contents(bytes).ok()?;
        let records = |body| -> Vec<Record> {
            let (records, _) = <[u8]>::as_chunks(&bytes[body]);
            records.to_vec()
        };
        Some(Sheet {
            tablets: contents.tablets,
            values: contents.values,
            bodies: contents.bodies.into_iter().map(records).collect(),
        })
    }

    pub fn encode(&self) -> Vec<u8> {
        let mut bytes = vec![1, self.tablets, self.values, self.bodies.len() as u8];
        let mut offset = 4 + 4 * self.bodies.len();
        for body in &self.bodies {
            bytes.extend((offset as u16).to_le_bytes());
            bytes.extend((body.len() as u16).to_le_bytes());
            offset += RECORD * body.len();
        }
        bytes.extend(self.bodies.iter().flatten().flatten());
        bytes
    }

    /// The records of one body in the notation of the worked evenings; a bad
    /// record is shown by its bytes.
    pub fn notation(&self, body: usize) -> String {
        let shown = |record: &Record| match file::record(record, self.tablets, self.values) {
            Some(event) => event.to_string(),
            None => format!("bad {}", hex(record)),
        };
        let records: Vec<String> = self.bodies[body].iter().map(shown).collect();
        if records.is_empty() {
            return "none".to_string();
        }
        records.join(", ")
    }
}

/// The record of an observation.
pub fn record(event: Event) -> Record {
    let (new, seen, set) = match event {
        Event::Read { seen, .. } => (0, seen, 0),
        Event::Write { new, seen, .. } => (new, seen, 0),
        Event::Stabilize { seen, conflicts } => (0, seen, conflicts),
        _ => (0, 0, 0),
    };
    let [kind, tablet] = event.bytes();
    let mut record = [0; RECORD];
    record[..4].copy_from_slice(&[kind, tablet, new, seen]);
    record[4..].copy_from_slice(&u64::to_le_bytes(set));
    record
}

pub fn hex(bytes: &[u8]) -> String {
    bytes.iter().map(|byte| format!("{byte:02x}")).collect()
}
