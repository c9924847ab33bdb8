//! Rolls of commands for the places that document 01 names, to run two
//! settlement cores on side by side.
//!
//! A roll is made with the reference house running along, so that most of its
//! commands are accepted and the tickets, days and balls in it make sense. The
//! same seed always makes the same rolls.
//!
//! | What document 01 says                       | Module         |
//! |---------------------------------------------|----------------|
//! | Ways, Price, Prizes and their schedules      | [`sweeps`]     |
//! | Cuts, jackpots, Keno To Go, cancels, expiry  | [`scenarios`]  |
//! | The end of every February, as asked since    | [`scenarios`]  |
//! | Lucky Last, as asked since                   | [`lucky_last`] |
//! | Odd jackpot cents by stake, as asked since   | [`odd_cents`]  |
//! | Collecting part way, as asked since          | [`collecting`] |
//! | A game called off, as asked since            | [`calling_off`], [`mixed`] |
//! | All of it at once, refusals included         | [`mixed`]      |
//! | The roll, when it is damaged or cut off      | [`damaged`]    |
//! | The limits of 9,999,999                      | [`far_games`], [`far_tickets`] |
//! | Every refusal and stop is met                | [`coverage`]   |
//! | Every outcome of a feature is met            | [`features`]   |
//! | Who shares a jackpot, and its odd cents      | [`sharing`]    |
//! | Every outcome of a collection is met         | [`collections`] |
//! | Every outcome of a game called off is met    | [`calls_off`]  |

pub mod calling_off;
pub mod calls_off;
pub mod collecting;
pub mod collections;
pub mod coverage;
pub mod damaged;
pub mod far_games;
pub mod far_tickets;
pub mod features;
pub mod lucky_last;
pub mod mixed;
pub mod odd_cents;
pub mod outcomes;
pub mod random;
pub mod scenarios;
pub mod shapes;
pub mod sharing;
pub mod sweeps;
pub mod writer;

pub use calls_off::CallsOff;
pub use collections::Collections;
pub use coverage::Coverage;
pub use far_games::FarGames;
pub use features::Features;
pub use outcomes::Outcomes;
pub use random::Random;
pub use sharing::Sharing;
pub use writer::RollWriter;

/// A roll and what it is for.
#[derive(Clone, Debug)]
pub struct NamedRoll {
    pub name: String,
    pub bytes: Vec<u8>,
}

/// Every roll of this crate but the far games, which are 400 million bytes.
pub fn everything(seed: u64) -> Vec<NamedRoll> {
    let sets = [
        ("schedule cells", sweeps::schedule_cells(seed)),
        ("groups and types", sweeps::groups_and_types()),
        ("stakes", sweeps::stakes()),
        ("charges", sweeps::charges()),
        ("way sizes", sweeps::way_sizes()),
        ("crowded cuts", scenarios::crowded_cuts(seed)),
        ("shared jackpots", scenarios::shared_jackpots(seed)),
        ("grown jackpots", scenarios::grown_jackpots(seed)),
        ("keno to go", scenarios::keno_to_go(seed)),
        ("cancels", scenarios::cancels(seed)),
        ("expiries", scenarios::expiries(seed)),
        ("februaries", scenarios::februaries(seed)),
        ("crowded lounge", scenarios::crowded_lounge(seed)),
        ("transfers", scenarios::transfers(seed)),
        ("feature numbers", lucky_last::numbers(seed)),
        ("feature operands", lucky_last::operands()),
        ("feature charges", lucky_last::charges()),
        ("features beside cuts", lucky_last::beside_cuts(seed)),
        ("odd cents", odd_cents::winners(seed)),
        ("odd cents of ways", odd_cents::ways(seed)),
        ("odd cents apart", odd_cents::apart(seed)),
        ("odd cents of free games", odd_cents::free_games(seed)),
        ("collections", collecting::moments(seed)),
        ("collections in a row", collecting::in_a_row(seed)),
        ("collections of 200", collecting::two_hundred(seed)),
        ("collections of jackpots", collecting::jackpots(seed)),
        ("called off", calling_off::moments(seed)),
        ("called off up to the free games", calling_off::free_games(seed)),
        ("called off in a row", calling_off::in_a_row(seed)),
        ("called off with 200", calling_off::two_hundred(seed)),
        ("called off between jackpots", calling_off::jackpots(seed)),
        ("called off among all", mixed::often_called_off(seed, 10, 1_000)),
        ("mixed", mixed::mixed_set(seed, 60, 1_000)),
        ("overlong", mixed::overlong(seed)),
        ("damaged", damaged::damaged_set(seed, 120)),
        ("noise", damaged::noise(seed, 40)),
    ];
    sets.into_iter().flat_map(|(name, rolls)| named(name, rolls)).collect()
}

fn named(name: &str, rolls: Vec<Vec<u8>>) -> Vec<NamedRoll> {
    let name_of = |index| format!("{name} {index}");
    let rolls = (1..).zip(rolls);
    rolls.map(|(index, bytes)| NamedRoll { name: name_of(index), bytes }).collect()
}
