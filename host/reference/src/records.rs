//! The four records of a model file: their fields and their byte forms.

use crate::little_endian::{u16_at, u32_at};

/// A value on a port. Messages compare by port, then by value as a number.
#[derive(Clone, Copy, Debug, Default, PartialEq, Eq, PartialOrd, Ord)]
pub struct Message {
    pub port: u8,
    pub value: u16,
}

#[derive(Clone, Copy, Debug, Default, PartialEq, Eq)]
pub struct Component {
    pub kind: u8,
    pub parent: u8,
    pub phase_count: u8,
    pub initial_phase: u8,
    pub order: u8,
}

#[derive(Clone, Copy, Debug, Default, PartialEq, Eq)]
pub struct Phase {
    pub advance: u32,
    pub next_phase: u8,
    pub output_count: u8,
    pub slots: [Message; 4],
}

#[derive(Clone, Copy, Debug, Default, PartialEq, Eq)]
pub struct Rule {
    pub component: u8,
    pub phase: u8,
    pub next_phase: u8,
    pub port: u8,
    pub low_value: u16,
    pub high_value: u16,
    pub least_count: u16,
    pub low_elapsed: u32,
    pub high_elapsed: u32,
}

/// The fields stand in file order, so the derived order is the order of four-byte rows.
#[derive(Clone, Copy, Debug, Default, PartialEq, Eq, PartialOrd, Ord)]
pub struct Coupling {
    pub source: u8,
    pub source_port: u8,
    pub target: u8,
    pub target_port: u8,
}

impl Message {
    pub const BYTES: usize = 3;

    pub fn read(bytes: &[u8]) -> Message {
        Message { port: bytes[0], value: u16_at(bytes, 1) }
    }

    pub fn write(&self, out: &mut Vec<u8>) {
        out.push(self.port);
        out.extend(self.value.to_le_bytes());
    }
}

impl Component {
    pub const BYTES: usize = 5;
    pub const COUPLED: u8 = 0;
    pub const ATOMIC: u8 = 1;

    pub fn is_atomic(&self) -> bool {
        self.kind == Component::ATOMIC
    }

    pub fn read(bytes: &[u8]) -> Component {
        Component {
            kind: bytes[0],
            parent: bytes[1],
            phase_count: bytes[2],
            initial_phase: bytes[3],
            order: bytes[4],
        }
    }

    pub fn write(&self, out: &mut Vec<u8>) {
        out.extend([self.kind, self.parent, self.phase_count, self.initial_phase, self.order]);
    }
}

impl Phase {
    pub const BYTES: usize = 18;

    pub fn outputs(&self) -> &[Message] {
        &self.slots[..usize::from(self.output_count)]
    }

    pub fn read(bytes: &[u8]) -> Phase {
        let slot = |number: usize| Message::read(&bytes[6 + 3 * number..]);
        Phase {
            advance: u32_at(bytes, 0),
            next_phase: bytes[4],
            output_count: bytes[5],
            slots: [slot(0), slot(1), slot(2), slot(3)],
        }
    }

    pub fn write(&self, out: &mut Vec<u8>) {
        out.extend(self.advance.to_le_bytes());
        out.extend([self.next_phase, self.output_count]);
        for slot in &self.slots {
            slot.write(out);
        }
    }
}

impl Rule {
    pub const BYTES: usize = 18;

    pub fn read(bytes: &[u8]) -> Rule {
        Rule {
            component: bytes[0],
            phase: bytes[1],
            next_phase: bytes[2],
            port: bytes[3],
            low_value: u16_at(bytes, 4),
            high_value: u16_at(bytes, 6),
            least_count: u16_at(bytes, 8),
            low_elapsed: u32_at(bytes, 10),
            high_elapsed: u32_at(bytes, 14),
        }
    }

    pub fn write(&self, out: &mut Vec<u8>) {
        out.extend([self.component, self.phase, self.next_phase, self.port]);
        out.extend(self.low_value.to_le_bytes());
        out.extend(self.high_value.to_le_bytes());
        out.extend(self.least_count.to_le_bytes());
        out.extend(self.low_elapsed.to_le_bytes());
        out.extend(self.high_elapsed.to_le_bytes());
    }
}

impl Coupling {
    pub const BYTES: usize = 4;

    pub fn read(bytes: &[u8]) -> Coupling {
        Coupling {
            source: bytes[0],
            source_port: bytes[1],
            target: bytes[2],
            target_port: bytes[3],
        }
    }

    pub fn write(&self, out: &mut Vec<u8>) {
        out.extend([self.source, self.source_port, self.target, self.target_port]);
    }
}
