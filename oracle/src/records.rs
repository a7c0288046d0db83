//! The records of a log, as one who writes a log sees them.

pub const OPENING: u8 = 0x10;
pub const IDLE: u8 = 0x11;
pub const MARK: u8 = 0x12;
pub const SEND: u8 = 0x13;
pub const RECEIPT: u8 = 0x14;
pub const KINDS: [u8; 5] = [OPENING, IDLE, MARK, SEND, RECEIPT];

#[derive(Clone, Copy, Debug, PartialEq, Eq)]
pub enum Record {
    Opening {
        nodes: u8,
    },
    Idle {
        node: u8,
    },
    Mark {
        node: u8,
    },
    Send {
        node: u8,
        destination: u8,
        number: u16,
    },
    Receipt {
        node: u8,
        number: u16,
    },
}

impl Record {
    pub fn bytes(&self) -> Vec<u8> {
        bytes_of(&[*self])
    }

    pub fn write(&self, log: &mut Vec<u8>) {
        match *self {
            Record::Opening { nodes } => log.extend([OPENING, nodes]),
            Record::Idle { node } => log.extend([IDLE, node]),
            Record::Mark { node } => log.extend([MARK, node]),
            Record::Send {
                node,
                destination,
                number,
            } => {
                log.extend([SEND, node, destination]);
                log.extend(number.to_le_bytes());
            }
            Record::Receipt { node, number } => {
                log.extend([RECEIPT, node]);
                log.extend(number.to_le_bytes());
            }
        }
    }
}

/// The bytes of a row of records.
pub fn bytes_of(records: &[Record]) -> Vec<u8> {
    let mut log = Vec::new();
    for record in records {
        record.write(&mut log);
    }
    log
}
