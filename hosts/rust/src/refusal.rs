//! Why a command is refused.

use std::error::Error;
use std::fmt;

macro_rules! refusals {
    ($($name:ident = $number:literal, $sentence:literal;)*) => {
        /// Why a command is refused. A refused command changes nothing.
        ///
        /// Each has the number that stands in the answer's code, and a sentence. 24 is not
        /// used any more: it stood for a claim of a ticket with nothing due, which is closed.
        ///
        /// ```
        /// use wulipday::Refusal;
        ///
        /// let refusal = Refusal::from_number(19).unwrap();
        /// assert_eq!(refusal, Refusal::Closed);
        /// assert_eq!(refusal.to_string(), "the ticket is closed");
        /// ```
        #[derive(Clone, Copy, Debug, PartialEq, Eq, Hash, PartialOrd, Ord)]
        pub enum Refusal {
            $(
                #[doc = concat!($sentence, ".")]
                $name = $number,
            )*
        }

        impl Refusal {
            /// All of them, by number.
            pub const ALL: [Refusal; 31] = [$(Refusal::$name),*];

            /// What it says, for people.
            pub fn sentence(self) -> &'static str {
                match self {
                    $(Refusal::$name => $sentence,)*
                }
            }
        }
    };
}

refusals! {
    NoDay = 4, "no day has been opened";
    DayNotLater = 5, "the day is not later than today";
    Drawing = 6, "a game is being drawn";
    NoSuchKind = 7, "there is no such kind of ticket";
    Games = 8, "a ticket has 1 to 100 games";
    Groups = 9, "a ticket has 1 to 8 groups";
    Marks = 10, "a number is marked with a group that is not there, or a group has no number";
    Types = 11, "the types name no ways, or ways of more groups than there are";
    WaySize = 12, "a way has too few or too many numbers for this kind of ticket";
    SpecialOneWithOneWay = 13, "a Special One ticket has two ways or more";
    Stake = 14, "the stake is too low or no multiple of its unit";
    Charge = 15, "the charge is above $9,999.00";
    LiveTickets = 16, "200 tickets are live";
    NumbersUsedUp = 17, "the ticket numbers or the game numbers are used up";
    NeverIssued = 18, "no ticket of this number was issued";
    Closed = 19, "the ticket is closed";
    EarlierDay = 20, "the ticket was sold on an earlier day";
    KenoToGoBegun = 21, "the ticket is a Keno To Go whose first game has begun";
    NoGameToTakeOff = 22, "the ticket has no game that can be taken off";
    NotFinished = 23, "the ticket has games left to draw";
    BallNumber = 25, "a ball has a number from 1 to 80";
    GamesUsedUp = 26, "the game numbers are used up";
    BallIn = 27, "the ball is in already";
    NoSuchJackpot = 28, "there is no such jackpot";
    TransferCents = 29, "the cents are 0 or more than is unclaimed";
    ShortBuffer = 30, "the buffer is too short for the live tickets";
    LuckyLast = 31, "a Lucky Last ticket is a standard one with one way";
    FeatureStake = 32, "the feature stake is 0 or not whole dollars";
    Finished = 33, "the ticket has no games left to draw";
    NothingDueYet = 34, "nothing is due on the ticket yet";
    TicketsUsedUp = 35, "the ticket numbers are used up";
}

impl Refusal {
    /// The code in the answer.
    pub fn number(self) -> u8 {
        self as u8
    }

    /// The refusal with this code.
    pub fn from_number(number: u8) -> Option<Refusal> {
        Refusal::ALL.into_iter().find(|refusal| refusal.number() == number)
    }
}

impl fmt::Display for Refusal {
    fn fmt(&self, formatter: &mut fmt::Formatter<'_>) -> fmt::Result {
        formatter.write_str(self.sentence())
    }
}

impl Error for Refusal {}

#[cfg(test)]
mod tests {
    use super::*;

    #[test]
    fn every_number_from_4_to_35_but_24() {
        let numbers: Vec<u8> = Refusal::ALL.iter().map(|refusal| refusal.number()).collect();
        assert_eq!(numbers, (4..=23).chain(25..=35).collect::<Vec<u8>>());
        for number in 0..=255 {
            let found = Refusal::from_number(number).map(Refusal::number);
            assert_eq!(found, numbers.contains(&number).then_some(number));
        }
        assert_eq!(Refusal::from_number(24), None);
    }
}
