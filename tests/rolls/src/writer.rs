//! Writes the commands of "The house" on a roll and carries them out on a
//! reference house along the way.

use reference::{Answer, Calendar, Command, House};

pub struct RollWriter {
    house: House,
    roll: Vec<u8>,
}

impl Default for RollWriter {
    fn default() -> RollWriter {
        RollWriter::new()
    }
}

impl RollWriter {
    /// A blank roll and a fresh house.
    pub fn new() -> RollWriter {
        RollWriter::on(House::fresh())
    }

    /// A blank roll on a house that others have used.
    pub fn on(house: House) -> RollWriter {
        RollWriter { house, roll: Vec::new() }
    }

    /// A roll that begins with Open day 1.
    pub fn opened() -> RollWriter {
        let mut writer = RollWriter::new();
        writer.open(1);
        writer
    }

    pub fn house(&self) -> &House {
        &self.house
    }

    /// Bytes written so far.
    pub fn length(&self) -> usize {
        self.roll.len()
    }

    pub fn finish(self) -> Vec<u8> {
        self.roll
    }

    pub fn give(&mut self, command: &Command) -> Answer {
        self.roll.extend(command.encode());
        self.house.command(command)
    }

    pub fn open(&mut self, day: u16) -> Answer {
        self.give(&Command::Open { day })
    }

    /// Opens a day so many days after today.
    pub fn open_after(&mut self, days: u16) -> Answer {
        self.open(self.house.today().saturating_add(days))
    }

    /// Opens the last day on which what finishes today has not expired, or a day
    /// so many days after it.
    pub fn open_a_year_on(&mut self, days_after: u16) -> Answer {
        let last = Calendar::GREGORIAN.stands_through(self.house.today());
        self.open(u16::try_from(last).unwrap_or(u16::MAX).saturating_add(days_after))
    }

    pub fn sell(&mut self, kind: u8, games: u8, stake: u32, groups: &[&[u8]], types: u8) -> Answer {
        self.give(&Command::sell(kind, games, stake, groups, types))
    }

    /// A ticket of one way.
    pub fn straight(&mut self, kind: u8, games: u8, stake: u32, numbers: &[u8]) -> Answer {
        self.sell(kind, games, stake, &[numbers], 1)
    }

    /// A ticket of one group with a feature.
    pub fn lucky_last(
        &mut self,
        games: u8,
        stake: u32,
        feature_stake: u32,
        numbers: &[u8],
    ) -> Answer {
        self.give(&Command::lucky_last(games, stake, feature_stake, numbers))
    }

    /// A sale, and where it is accepted its cancel.
    pub fn sell_and_cancel(&mut self, sale: &Command) {
        let sold = self.give(sale);
        if sold.code == 0 {
            self.cancel(sold.number);
        }
    }

    pub fn cancel(&mut self, ticket: u32) -> Answer {
        self.give(&Command::Cancel { ticket })
    }

    pub fn ball(&mut self, number: u8) -> Answer {
        self.give(&Command::Ball { number })
    }

    pub fn balls(&mut self, numbers: &[u8]) {
        for &number in numbers {
            self.ball(number);
        }
    }

    pub fn claim(&mut self, ticket: u32) -> Answer {
        self.give(&Command::Claim { ticket })
    }

    /// A claim for every number from the last `tickets` issued, closed ones
    /// included, and for the one that comes next.
    pub fn claim_last(&mut self, tickets: u32) {
        let issued = self.house.issued();
        for ticket in issued.saturating_sub(tickets) + 1..=issued + 1 {
            self.claim(ticket);
        }
    }

    pub fn expire(&mut self) -> Answer {
        self.give(&Command::Expire)
    }

    pub fn collect(&mut self, ticket: u32) -> Answer {
        self.give(&Command::Collect { ticket })
    }

    pub fn call_off(&mut self) -> Answer {
        self.give(&Command::CallOff)
    }

    /// The live tickets that can collect: something is due, and games are left.
    pub fn collectable(&self) -> Vec<u32> {
        let live = self.house.live_tickets();
        let can_collect = live.filter(|ticket| !ticket.is_finished() && ticket.due() > 0);
        can_collect.map(|ticket| ticket.number).collect()
    }

    pub fn transfer(&mut self, jackpot: u8, cents: u32) -> Answer {
        self.give(&Command::Transfer { jackpot, cents })
    }

    /// Draws until so many balls are in, taking those of the list that are not.
    pub fn draw_some(&mut self, numbers: &[u8], balls_in: usize) {
        for &number in numbers {
            if self.house.balls().len() >= balls_in {
                return;
            }
            if !self.house.balls().contains(&number) {
                self.ball(number);
            }
        }
    }

    /// Draws what is missing of the current game, taking the balls in the order
    /// given and leaving out those that are in.
    pub fn draw_from(&mut self, numbers: &[u8]) {
        let game = self.house.game();
        for &number in numbers {
            if self.house.game() != game {
                return;
            }
            if !self.house.balls().contains(&number) {
                self.ball(number);
            }
        }
    }
}
