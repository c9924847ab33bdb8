//! The numbers of "Where each thing is checked", and of the requests since, by
//! name.

macro_rules! refusals {
    ($($name:ident = $number:literal;)*) => {
        $(pub const $name: u8 = $number;)*

        /// Every number that a refusal has.
        pub const ALL: [u8; 31] = [$($name),*];
    };
}

refusals! {
    DAY_IS_ZERO = 4;
    DAY_NOT_LATER = 5;
    DRAWING = 6;

    KIND = 7;
    GAMES = 8;
    GROUPS = 9;
    MARKS = 10;
    TYPES = 11;
    WAY_SIZE = 12;
    SPECIAL_ONE_WITH_ONE_WAY = 13;
    STAKE = 14;
    CHARGE = 15;
    LIVE_TICKETS = 16;
    NUMBERS_USED_UP = 17;

    NEVER_ISSUED = 18;
    CLOSED = 19;
    EARLIER_DAY = 20;
    KENO_TO_GO_BEGUN = 21;
    NO_GAME_TO_TAKE_OFF = 22;
    NOT_FINISHED = 23;
    // 24 stood for a claim with nothing due. It is out of reach and is not used again.

    BALL_NUMBER = 25;
    GAMES_USED_UP = 26;
    BALL_ALREADY_IN = 27;

    JACKPOT = 28;
    TRANSFER_CENTS = 29;

    SHORT_BUFFER = 30;

    FEATURE_TICKET = 31;
    FEATURE_STAKE = 32;

    FINISHED = 33;
    NOTHING_DUE_YET = 34;
    TICKETS_USED_UP = 35;
}
