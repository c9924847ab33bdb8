//! The exported functions and the structs they pass, field for field as the
//! Rattle crates declare them, and the one place that calls them: [`Core`].

#![allow(unsafe_code)]

#[cfg(test)]
mod layout;

/// Words of the 200 tickets that can be live at once.
pub const WORDS: usize = 3_200;
/// Marks of the 200 tickets that can be live at once.
pub const MARKS: usize = 16_000;

/// Bytes of an answer: command byte, code, number (4), cents (8).
pub const ANSWER_BYTES: usize = 14;

/// What the core keeps of 200 tickets, sixteen words each.
pub type Rows = Box<[u64; WORDS]>;
/// The marks of 200 tickets, 80 bytes each.
pub type RowsOfMarks = Box<[u8; MARKS]>;

/// Three pools and the seed debt of a jackpot, in cents.
#[repr(C)]
#[derive(Clone, Copy, Debug, PartialEq, Eq)]
pub struct Jackpot {
    /// What a full match wins.
    pub primary: u64,
    /// What moves into the primary after a win.
    pub secondary: u64,
    /// What the house is paid back from.
    pub reimbursement: u64,
    /// Seeds that the house has not been paid back.
    pub debt: u64,
}

#[repr(C)]
#[derive(Clone, Copy, Debug, PartialEq, Eq)]
pub struct Counters {
    taken: u64,
    seeds: u64,
    paid: u64,
    refunded: u64,
    unclaimed: u64,
    gained: u64,
    lost: u64,
}

/// The house but for its tickets. Nobody outside this module can make one.
#[repr(C)]
#[derive(Clone, Copy, Debug, PartialEq, Eq)]
pub struct House {
    day: u64,
    game: u64,
    balls: [u8; 20],
    drawn: u64,
    issued: u64,
    live: u64,
    six: Jackpot,
    eight: Jackpot,
    counters: Counters,
}

/// How far a roll was read, with the house after it.
#[repr(C)]
#[derive(Clone, Copy, Debug)]
pub struct Report {
    house: House,
    pub stop: u8,
    pub read: usize,
    pub answers: usize,
}

/// The nine figures of the till, in cents.
///
/// `taken` and `seeds` together equal the other seven.
#[repr(C)]
#[derive(Clone, Copy, Debug, PartialEq, Eq)]
pub struct Till {
    /// The charges of all tickets sold.
    pub taken: u64,
    /// What the house has put into the jackpots.
    pub seeds: u64,
    /// What claims and collections have paid.
    pub paid: u64,
    /// What cancels have paid back.
    pub refunded: u64,
    /// Prizes, shares and what was paid for games called off, neither claimed, collected nor
    /// expired.
    pub owed: u64,
    /// Paid stakes of games neither drawn, taken off nor called off.
    pub held: u64,
    /// Expired and not transferred.
    pub unclaimed: u64,
    /// The six pools together.
    pub pooled: u64,
    /// What the house has kept, or lost: its size. See [`Till::retained_cents`].
    pub retained: u64,
    /// Whether `retained` is below zero.
    pub negative: bool,
}

/// The pools and the debt of each jackpot.
#[repr(C)]
#[derive(Clone, Copy, Debug, PartialEq, Eq)]
pub struct Pools {
    /// The jackpot for six numbers.
    pub six: Jackpot,
    /// The jackpot for eight numbers.
    pub eight: Jackpot,
}

/// 0 with the number of live tickets, or the refusal's number.
#[repr(C)]
#[derive(Clone, Copy, Debug, PartialEq, Eq)]
pub struct Listed {
    pub code: u8,
    pub count: u32,
}

// A lent slice is its first element's address and its length.
extern "C" {
    fn wulipday_fresh() -> House;

    fn wulipday_command(
        house: House,
        rows: &mut [u64; WORDS],
        marks: &mut [u8; MARKS],
        command: *const u8,
        command_length: usize,
        answer: &mut [u8; ANSWER_BYTES],
    ) -> Report;

    fn wulipday_roll(
        house: House,
        rows: &mut [u64; WORDS],
        marks: &mut [u8; MARKS],
        roll: *const u8,
        roll_length: usize,
        book: *mut u8,
        book_length: usize,
    ) -> Report;

    fn wulipday_till(house: House, rows: &[u64; WORDS]) -> Till;

    fn wulipday_pools(house: House) -> Pools;

    fn wulipday_live_list(
        house: House,
        rows: &[u64; WORDS],
        out: *mut u8,
        out_length: usize,
    ) -> Listed;
}

/// The house, its rows and its marks, kept together.
///
/// It begins fresh, and nothing but `command` and `roll` changes it: that is what
/// every exported function relies on.
#[derive(Clone, Debug, PartialEq, Eq)]
pub struct Core {
    house: House,
    rows: Rows,
    marks: RowsOfMarks,
}

impl Core {
    /// A fresh house in buffers that may hold anything.
    pub fn fresh_in(rows: Rows, marks: RowsOfMarks) -> Core {
        // Safety: the function asks for nothing.
        let house = unsafe { wulipday_fresh() };
        Core { house, rows, marks }
    }

    pub fn command(&mut self, command: &[u8], answer: &mut [u8; ANSWER_BYTES]) -> Report {
        // Safety: as in `roll`.
        let report = unsafe {
            wulipday_command(
                self.house,
                &mut self.rows,
                &mut self.marks,
                command.as_ptr(),
                command.len(),
                answer,
            )
        };
        self.house = report.house;
        report
    }

    pub fn roll(&mut self, roll: &[u8], book: &mut [u8]) -> Report {
        // Safety: house, rows and marks are as the last call left them, and the
        // first one had a fresh house. No two of the lent places overlap.
        let report = unsafe {
            wulipday_roll(
                self.house,
                &mut self.rows,
                &mut self.marks,
                roll.as_ptr(),
                roll.len(),
                book.as_mut_ptr(),
                book.len(),
            )
        };
        self.house = report.house;
        report
    }

    pub fn till(&self) -> Till {
        // Safety: the rows go with the house, as in `roll`.
        unsafe { wulipday_till(self.house, &self.rows) }
    }

    pub fn pools(&self) -> Pools {
        // Safety: the function asks for nothing.
        unsafe { wulipday_pools(self.house) }
    }

    pub fn live_list(&self, out: &mut [u8]) -> Listed {
        // Safety: the rows go with the house, as in `roll`; `out` is apart from
        // them.
        unsafe { wulipday_live_list(self.house, &self.rows, out.as_mut_ptr(), out.len()) }
    }
}
