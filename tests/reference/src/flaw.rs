//! The traps of "Settled examples" and places like them, as wrong turns this
//! crate can be told to take.
//!
//! A check that a flawed house passes as well checks nothing. Each flaw breaks
//! the house in one place, so the checks themselves can be put to the test.

/// The one place where a house is wrong; [`Flaw::None`] is the true house.
#[derive(Clone, Copy, Debug, Default, PartialEq, Eq)]
pub enum Flaw {
    #[default]
    None,
    /// A ticket that is still live plays in game first + games as well.
    SettlesOneGameMore,
    /// Prizes join the floored once, and nobody looks again.
    OneCutRound,
    /// The $50,000 cap of rule 12.2 is put on jackpot tickets too.
    CappedJackpot,
    /// Jackpot contributions are made at the sale, for all paid games, and not
    /// as the games are drawn.
    PoolsAtSale,
    /// The odd cents of a shared jackpot go to winning ways by ticket number,
    /// whatever their stakes.
    OddCentsByTicket,
    /// They go to winning ways by stake, the smaller first.
    OddCentsToSmaller,
    /// They go to the last ways of the true order.
    OddCentsToLast,
    /// The live list begins with the highest number.
    FallingLiveList,
    /// A ticket's year is 365 days, whatever the calendar says.
    YearOf365Days,
    /// Every fourth year is a leap year, 2100 too.
    EveryFourthYearLeaps,
    /// Any ball among the ticket's numbers wins the feature, not only the last.
    FeatureByAnyBall,
    /// Free games do not play for the feature.
    NoFeatureInFreeGames,
    /// A feature prize of $200 or more counts as a major prize and is cut.
    FeatureAmongMajors,
    /// A cancel gives back the stakes of the ways alone.
    FeatureStakeNotRefunded,
    /// A collected number stays live, though its due is paid.
    CollectedStaysLive,
    /// What a collection pays is due on the new number again.
    CollectedDueIsKept,
    /// A reissued ticket counts as sold today.
    ReissuedAsSoldToday,
    /// How many games of a reissued ticket are free is counted from the games left.
    ReissuedFreeGamesAnew,
    /// The game being drawn does not go to the new number, nor stay with the old.
    ReissuedWithoutGameBeingDrawn,
    /// A free game that is called off gives back what a paid one does.
    FreeGameGivenBack,
    /// The stakes of a game that is called off give the jackpots their part all the same.
    CalledOffGamePools,
    /// The balls of a game that is called off are in the next one.
    CalledOffBallsStay,
    /// The next game has the number of the one that was called off.
    CalledOffNumberStays,
    /// What was paid for a game that is called off stays held, though it is due.
    CalledOffStakesStayHeld,
    /// A ticket that is finished by a draw stays live, though nothing is due on it.
    LostStaysLive,
    /// One that is finished by a cancel does.
    CancelledStaysLive,
    /// One that is finished when a game is called off does.
    CalledOffStaysLive,
}

impl Flaw {
    /// The flaws proper, without [`Flaw::None`].
    pub const ALL: [Flaw; 27] = [
        Flaw::SettlesOneGameMore,
        Flaw::OneCutRound,
        Flaw::CappedJackpot,
        Flaw::PoolsAtSale,
        Flaw::OddCentsByTicket,
        Flaw::OddCentsToSmaller,
        Flaw::OddCentsToLast,
        Flaw::FallingLiveList,
        Flaw::YearOf365Days,
        Flaw::EveryFourthYearLeaps,
        Flaw::FeatureByAnyBall,
        Flaw::NoFeatureInFreeGames,
        Flaw::FeatureAmongMajors,
        Flaw::FeatureStakeNotRefunded,
        Flaw::CollectedStaysLive,
        Flaw::CollectedDueIsKept,
        Flaw::ReissuedAsSoldToday,
        Flaw::ReissuedFreeGamesAnew,
        Flaw::ReissuedWithoutGameBeingDrawn,
        Flaw::FreeGameGivenBack,
        Flaw::CalledOffGamePools,
        Flaw::CalledOffBallsStay,
        Flaw::CalledOffNumberStays,
        Flaw::CalledOffStakesStayHeld,
        Flaw::LostStaysLive,
        Flaw::CancelledStaysLive,
        Flaw::CalledOffStaysLive,
    ];
}
