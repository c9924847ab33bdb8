//! The command table of "The house", and the commands asked for since: their
//! operands and their bytes, and the answer each gets.

use crate::ways::{marks_of, NUMBERS};

pub const OPEN: u8 = 0x01;
pub const SELL: u8 = 0x02;
pub const CANCEL: u8 = 0x03;
pub const BALL: u8 = 0x04;
pub const CLAIM: u8 = 0x05;
pub const EXPIRE: u8 = 0x06;
pub const TRANSFER: u8 = 0x07;
/// A sale with the feature Lucky Last.
pub const LUCKY_LAST: u8 = 0x08;
/// What is due part way, and the games left under a new number.
pub const COLLECT: u8 = 0x09;
/// The current game dropped, and what was paid for it due.
pub const CALL_OFF: u8 = 0x0A;

/// Bytes of a sale's operands, without a feature stake.
const SALE_OPERANDS: usize = 1 + 1 + 4 + 1 + 1 + NUMBERS;

/// A command with its operands, each as wide as the table says. Nothing about
/// them has been checked.
#[derive(Clone, Debug, PartialEq, Eq)]
pub enum Command {
    Open {
        day: u16,
    },
    /// With a feature stake its byte is [`LUCKY_LAST`], without one [`SELL`].
    Sell(Sale),
    Cancel {
        ticket: u32,
    },
    Ball {
        number: u8,
    },
    Claim {
        ticket: u32,
    },
    Expire,
    Transfer {
        jackpot: u8,
        cents: u32,
    },
    Collect {
        ticket: u32,
    },
    CallOff,
}

/// The operands of a sale.
#[derive(Clone, Debug, PartialEq, Eq)]
pub struct Sale {
    pub kind: u8,
    pub games: u8,
    pub stake: u32,
    pub groups: u8,
    pub types: u8,
    /// They may be any number of bytes; a roll always brings 80.
    pub marks: Vec<u8>,
    /// Cents per game. The sale asks for the feature by naming one, be it 0.
    pub feature_stake: Option<u32>,
}

impl Sale {
    /// A ticket with these groups of numbers, and no feature.
    pub fn new(kind: u8, games: u8, stake: u32, groups: &[&[u8]], types: u8) -> Sale {
        let marks = marks_of(groups);
        let groups = groups.len() as u8;
        Sale { kind, games, stake, groups, types, marks, feature_stake: None }
    }

    pub fn with_feature(self, feature_stake: u32) -> Sale {
        Sale { feature_stake: Some(feature_stake), ..self }
    }

    fn encode(&self, bytes: &mut Vec<u8>) {
        bytes.extend([self.kind, self.games]);
        bytes.extend(self.stake.to_be_bytes());
        bytes.extend([self.groups, self.types]);
        bytes.extend(&self.marks);
        if let Some(feature_stake) = self.feature_stake {
            bytes.extend(feature_stake.to_be_bytes());
        }
    }

    /// What is left behind the marks is the feature stake.
    fn decode(operands: &[u8]) -> Sale {
        let (sale, feature) = operands.split_at(SALE_OPERANDS);
        Sale {
            kind: sale[0],
            games: sale[1],
            stake: four_bytes(&sale[2..6]),
            groups: sale[6],
            types: sale[7],
            marks: sale[8..].to_vec(),
            feature_stake: (!feature.is_empty()).then(|| four_bytes(feature)),
        }
    }
}

/// What a command is answered: code 0 and two figures, or a refusal and zeros.
#[derive(Clone, Copy, Debug, PartialEq, Eq)]
pub struct Answer {
    pub code: u8,
    pub number: u32,
    pub cents: u64,
}

impl Answer {
    pub fn refused(code: u8) -> Answer {
        Answer { code, number: 0, cents: 0 }
    }

    pub fn accepted(number: u32, cents: u64) -> Answer {
        Answer { code: 0, number, cents }
    }
}

impl Command {
    /// A Sell of a ticket with these groups of numbers.
    pub fn sell(kind: u8, games: u8, stake: u32, groups: &[&[u8]], types: u8) -> Command {
        Command::Sell(Sale::new(kind, games, stake, groups, types))
    }

    /// A sale with a feature, of one way made of one group.
    pub fn lucky_last(games: u8, stake: u32, feature_stake: u32, numbers: &[u8]) -> Command {
        Command::Sell(Sale::new(0, games, stake, &[numbers], 1).with_feature(feature_stake))
    }

    /// The command byte.
    pub fn byte(&self) -> u8 {
        match self {
            Command::Open { .. } => OPEN,
            Command::Sell(sale) if sale.feature_stake.is_some() => LUCKY_LAST,
            Command::Sell(_) => SELL,
            Command::Cancel { .. } => CANCEL,
            Command::Ball { .. } => BALL,
            Command::Claim { .. } => CLAIM,
            Command::Expire => EXPIRE,
            Command::Transfer { .. } => TRANSFER,
            Command::Collect { .. } => COLLECT,
            Command::CallOff => CALL_OFF,
        }
    }

    /// The command as it stands on a roll. Marks go on as they are, so a sale
    /// without 80 of them does not read back.
    pub fn encode(&self) -> Vec<u8> {
        let mut bytes = vec![self.byte()];
        match self {
            Command::Open { day } => bytes.extend(day.to_be_bytes()),
            Command::Sell(sale) => sale.encode(&mut bytes),
            Command::Cancel { ticket }
            | Command::Claim { ticket }
            | Command::Collect { ticket } => {
                bytes.extend(ticket.to_be_bytes());
            }
            Command::Ball { number } => bytes.push(*number),
            Command::Expire | Command::CallOff => {}
            Command::Transfer { jackpot, cents } => {
                bytes.push(*jackpot);
                bytes.extend(cents.to_be_bytes());
            }
        }
        bytes
    }

    /// The command that these bytes are, command byte first; they must be as
    /// many as [`length`] says.
    pub fn decode(bytes: &[u8]) -> Command {
        let operands = &bytes[1..];
        match bytes[0] {
            OPEN => Command::Open { day: operands[0] as u16 * 256 + operands[1] as u16 },
            SELL | LUCKY_LAST => Command::Sell(Sale::decode(operands)),
            CANCEL => Command::Cancel { ticket: four_bytes(operands) },
            BALL => Command::Ball { number: operands[0] },
            CLAIM => Command::Claim { ticket: four_bytes(operands) },
            EXPIRE => Command::Expire,
            TRANSFER => {
                Command::Transfer { jackpot: operands[0], cents: four_bytes(&operands[1..]) }
            }
            COLLECT => Command::Collect { ticket: four_bytes(operands) },
            CALL_OFF => Command::CallOff,
            unknown => panic!("no command has the byte {unknown}"),
        }
    }
}

/// How many bytes a command takes on a roll, its own byte included; none for an
/// unknown byte.
pub fn length(byte: u8) -> Option<usize> {
    match byte {
        OPEN => Some(1 + 2),
        SELL => Some(1 + SALE_OPERANDS),
        LUCKY_LAST => Some(1 + SALE_OPERANDS + 4),
        CANCEL | CLAIM | COLLECT => Some(1 + 4),
        BALL => Some(1 + 1),
        EXPIRE | CALL_OFF => Some(1),
        TRANSFER => Some(1 + 1 + 4),
        _ => None,
    }
}

/// High byte first.
fn four_bytes(bytes: &[u8]) -> u32 {
    bytes[..4].iter().fold(0, |value, &byte| value * 256 + u32::from(byte))
}
