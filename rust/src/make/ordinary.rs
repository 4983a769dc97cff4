//! Dictionaries like that of a Redfish resource: sets of ten to sixty children, names of 4 to 24
//! letters, about a third of them names that come again in other sets and stand in the bytes once.

use super::draft::{Draft, Name, Row};
use crate::dictionary::{ARRAY, BOOLEAN, ENTRY, ENUM, INTEGER, SET, STRING};
use crate::random::Random;
use std::collections::{HashMap, HashSet, VecDeque};

const LEAST_NAME: usize = 4;
const MOST_NAME: usize = 24;
const MOST_OPTIONS: usize = 6;
const NAMED_ROW: usize = ENTRY + MOST_NAME + 1;
const NULLABLE: u8 = 4;
const READ_ONLY: u8 = 2;

#[rustfmt::skip]
const COMMON: [&str; 32] = [
    "Name", "Description", "Status", "State", "Health", "HealthRollup", "Links", "Actions",
    "Members", "Manufacturer", "Model", "SerialNumber", "PartNumber", "SparePartNumber", "AssetTag",
    "PowerState", "IndicatorLED", "Location", "Identifiers", "DurableName", "Enabled", "Disabled",
    "StandbyOffline", "Starting", "Absent", "Warning", "Critical", "Target", "Title", "Version",
    "UUID", "Chassis",
];

#[rustfmt::skip]
const WORDS: [&str; 48] = [
    "Memory", "Power", "Thermal", "Network", "Port", "Drive", "Volume", "Storage", "Processor",
    "System", "Count", "Total", "Speed", "Rate", "Limit", "Max", "Min", "Current", "Default",
    "Allowed", "Supported", "Reading", "Sensor", "Fan", "Voltage", "Lower", "Upper", "Threshold",
    "Boot", "Source", "Override", "Mode", "Type", "Cache", "Size", "Mega", "Bytes", "Link", "Width",
    "Address", "Policy", "Firmware", "Secure", "Key", "Session", "Event", "Time", "Zone",
];

struct Maker {
    random: Random,
    size: usize,
    draft: Draft,
    standing: HashMap<String, Name>,
    /// Rows whose children aren't there yet.
    waiting: VecDeque<usize>,
    /// Bytes that the children of waiting arrays and enums may need.
    owed: usize,
}

/// An accepted dictionary of exactly `size` bytes.
pub fn dictionary(size: usize, seed: u64) -> Vec<u8> {
    let mut maker = Maker {
        random: Random::new(seed),
        size,
        draft: Draft::default(),
        standing: HashMap::new(),
        waiting: VecDeque::new(),
        owed: 0,
    };
    let mut no_siblings = HashSet::new();
    maker.add_row(SET, 0, &mut no_siblings);
    while let Some(parent) = maker.waiting.pop_front() {
        maker.add_children(parent);
    }
    maker.draft.bytes(size)
}

/// The most bytes that the children of a row of this kind must have.
fn owed(kind: u8) -> usize {
    match kind {
        ARRAY => ENTRY,
        ENUM => MOST_OPTIONS * NAMED_ROW,
        _ => 0,
    }
}

impl Maker {
    fn room(&self) -> usize {
        self.size.saturating_sub(self.draft.size() + self.owed)
    }

    fn add_children(&mut self, parent: usize) {
        let first = self.draft.rows.len();
        let kind = self.draft.rows[parent].kind();
        self.owed -= owed(kind);
        match kind {
            ARRAY => self.add_element(),
            ENUM => self.add_options(),
            _ => self.add_members(),
        }
        let count = self.draft.rows.len() - first;
        self.draft.rows[parent] = self.draft.rows[parent].with_children(first, count);
    }

    fn add_element(&mut self) {
        let kind = self.random.pick(&[STRING, STRING, STRING, INTEGER, INTEGER, SET]);
        self.push(kind, 0, None);
    }

    fn add_options(&mut self) {
        let mut siblings = HashSet::new();
        for position in 0..self.random.between(2, MOST_OPTIONS) {
            self.add_row(STRING, position, &mut siblings);
        }
    }

    fn add_members(&mut self) {
        let mut siblings = HashSet::new();
        for position in 0..self.random.between(10, 60) {
            let kind = self.member_kind();
            if NAMED_ROW + owed(kind) <= self.room() {
                self.add_row(kind, position, &mut siblings);
            } else if NAMED_ROW <= self.room() {
                self.add_row(STRING, position, &mut siblings);
            } else {
                return;
            }
        }
    }

    /// About one row in 35 is a set, so that few sets stay empty when the room is used up; one is
    /// always waiting, so that the room is used up.
    fn member_kind(&mut self) -> u8 {
        if !self.waiting.iter().any(|&row| self.draft.rows[row].kind() == SET) {
            return SET;
        }
        match self.random.below(100) {
            0..=1 => SET,
            2..=7 => ARRAY,
            8..=15 => ENUM,
            16..=45 => INTEGER,
            46..=60 => BOOLEAN,
            _ => STRING,
        }
    }

    fn add_row(&mut self, kind: u8, position: usize, siblings: &mut HashSet<String>) {
        let letters = self.new_name(siblings);
        let name = match self.standing.get(&letters) {
            Some(name) => *name,
            None => self.draft.add_name(letters.as_bytes()),
        };
        self.standing.insert(letters.clone(), name);
        siblings.insert(letters);
        self.push(kind, position, Some(name));
    }

    fn push(&mut self, kind: u8, position: usize, name: Option<Name>) {
        let mut row = Row::new(kind, position, name);
        if self.random.chance(40) {
            row.format |= NULLABLE;
        }
        if self.random.chance(50) {
            row.format |= READ_ONLY;
        }
        if matches!(kind, SET | ARRAY | ENUM) {
            self.waiting.push_back(self.draft.rows.len());
            self.owed += owed(kind);
        }
        self.draft.rows.push(row);
    }

    fn new_name(&mut self, siblings: &HashSet<String>) -> String {
        loop {
            let letters = self.some_name();
            let fits = (LEAST_NAME..=MOST_NAME).contains(&letters.len());
            if fits && !siblings.contains(&letters) {
                return letters;
            }
        }
    }

    fn some_name(&mut self) -> String {
        if self.random.chance(30) {
            return self.random.pick(&COMMON).to_string();
        }
        let words = self.random.pick(&[2, 2, 2, 3, 3, 4]);
        (0..words).map(|_| self.random.pick(&WORDS)).collect()
    }
}

#[cfg(test)]
mod tests {
    use super::*;
    use crate::dictionary::accepts;

    #[test]
    fn of_the_size_asked_for_and_accepted() {
        for size in (60..2_000).step_by(7).chain([10_240, 65_535]) {
            let bytes = dictionary(size, size as u64);
            assert_eq!(bytes.len(), size);
            assert!(accepts(&bytes), "size {size}");
        }
    }

    #[test]
    fn ten_kibibytes_hold_some_five_hundred_rows() {
        for seed in 0..20 {
            let bytes = dictionary(10_240, seed);
            let count = u16::from_le_bytes([bytes[2], bytes[3]]);
            assert!((440..=600).contains(&count), "seed {seed}: {count} rows");
        }
    }

    #[test]
    fn the_same_for_the_same_seed() {
        assert_eq!(dictionary(10_240, 1), dictionary(10_240, 1));
        assert_ne!(dictionary(10_240, 1), dictionary(10_240, 2));
    }
}
