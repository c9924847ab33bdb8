//! The rolls of odd cents lead where they say: who wins, at which stakes, and how
//! many cents are odd.

use reference::{Closing, House, Standing};
use rolls::odd_cents::{self, WINNERS};
use rolls::sharing::{each_game, Sharing, Winner};
use std::collections::BTreeSet;

const SEED: u64 = 1998;

/// How each jackpot of a set of rolls was shared.
fn sharings(rolls: &[Vec<u8>]) -> Vec<Sharing> {
    let mut sharings = Vec::new();
    for roll in rolls {
        each_game(roll, |_, both| sharings.extend(both));
    }
    sharings.retain(|sharing| !sharing.winners.is_empty());
    sharings
}

fn count(sharings: &[Sharing], is_so: impl Fn(&Sharing) -> bool) -> usize {
    sharings.iter().filter(|sharing| is_so(sharing)).count()
}

/// The winner with the largest stake, if no other has it.
fn largest(sharing: &Sharing) -> Option<&Winner> {
    let largest = sharing.winners.iter().max_by_key(|winner| winner.stake)?;
    (sharing.largest_ways() == largest.ways).then_some(largest)
}

fn stakes(sharing: &Sharing) -> BTreeSet<u64> {
    sharing.winners.iter().map(|winner| winner.stake).collect()
}

#[test]
fn two_to_two_hundred_winners() {
    let sharings = sharings(&odd_cents::winners(SEED));
    assert_eq!(sharings.len(), 5 * WINNERS.len());
    for tickets in WINNERS {
        let with = |sharing: &Sharing| sharing.winners.len() == tickets;
        assert_eq!(count(&sharings, with), 5, "{tickets} winners");
    }
    assert_eq!(WINNERS[0], 2);
    assert_eq!(WINNERS.last(), Some(&House::MOST_LIVE_TICKETS));
    assert!(sharings.iter().all(|sharing| sharing.winners.iter().all(|winner| winner.ways == 1)));
}

/// None, one, and as many as there are winning ways but one; up to the end of the
/// largest stake, and to either side of it.
#[test]
fn as_many_odd_cents_as_can_be() {
    for (name, rolls, least) in [
        ("winners", odd_cents::winners(SEED), 5),
        ("ways", odd_cents::ways(SEED), 5),
        ("apart", odd_cents::apart(SEED), 1),
    ] {
        for jackpot in [6, 8] {
            let mut sharings = sharings(&rolls);
            // Of fewer, one is all but one.
            sharings.retain(|sharing| sharing.jackpot == jackpot && sharing.ways() > 2);
            let met = |of: &dyn Fn(&Sharing) -> u64| {
                count(&sharings, |sharing| sharing.odd_cents() == of(sharing)) >= least
            };
            assert!(met(&|_| 0), "{name} of {jackpot}: none");
            assert!(met(&|_| 1), "{name} of {jackpot}: one");
            assert!(met(&|s| s.ways() - 1), "{name} of {jackpot}: all but one");
            assert!(met(&|s| s.largest_ways() - 1), "{name} of {jackpot}: one less");
            assert!(met(&Sharing::largest_ways), "{name} of {jackpot}: the largest");
            assert!(met(&|s| s.largest_ways() + 1), "{name} of {jackpot}: one more");
        }
    }
}

/// Equal stakes, and a largest one on an early ticket, on a late one and in between.
#[test]
fn stakes_by_number() {
    let sharings = sharings(&odd_cents::winners(SEED));
    let at = |is_there: fn(&Sharing, &Winner) -> bool| {
        count(&sharings, |sharing| {
            sharing.odd_cents() > 0
                && largest(sharing).is_some_and(|winner| is_there(sharing, winner))
        })
    };
    assert!(at(|sharing, winner| sharing.winners.first() == Some(winner)) >= 10);
    assert!(at(|sharing, winner| sharing.winners.last() == Some(winner)) >= 10);
    let is_end = |sharing: &Sharing, winner: &Winner| {
        sharing.winners.first() == Some(winner) || sharing.winners.last() == Some(winner)
    };
    assert!(count(&sharings, |s| largest(s).is_some_and(|winner| !is_end(s, winner))) >= 5);
    assert!(count(&sharings, |sharing| stakes(sharing).len() == 1) >= WINNERS.len());
    assert!(count(&sharings, |sharing| (2..=3).contains(&stakes(sharing).len())) >= 10);
    assert!(count(&sharings, |sharing| stakes(sharing).len() == 200) >= 2);
    // Of tickets with one stake, the first have a cent and the others none.
    let ends_within = |sharing: &Sharing| {
        largest(sharing).is_none() && (1..sharing.largest_ways()).contains(&sharing.odd_cents())
    };
    assert!(count(&sharings, ends_within) >= 10);
}

/// A ticket's ways all have an odd cent, some have one, or none has.
#[test]
fn several_ways_and_both_jackpots() {
    let rolls = odd_cents::ways(SEED);
    let mut both_odd = 0;
    for roll in &rolls {
        each_game(roll, |_, both| {
            both_odd += usize::from(both.iter().all(|sharing| sharing.odd_cents() > 0));
        });
    }
    assert!(both_odd >= 20, "{both_odd}");
    let sharings = sharings(&rolls);
    assert!(sharings.iter().any(|sharing| sharing.winners.iter().any(|w| w.ways == 70)));
    let ends_within = |sharing: &Sharing| {
        largest(sharing).is_some_and(|winner| {
            sharing.winners.len() > 1 && (1..winner.ways).contains(&sharing.odd_cents())
        })
    };
    assert!(count(&sharings, ends_within) >= 10);
    let passes_on = |sharing: &Sharing| {
        largest(sharing).is_some_and(|w| w.ways > 1 && sharing.odd_cents() > w.ways)
    };
    assert!(count(&sharings, passes_on) >= 10);
    // What the ticket cost says another order than the stake of a way does.
    let costs_less = |sharing: &Sharing| {
        largest(sharing).is_some_and(|largest| {
            let cost = |winner: &Winner| winner.ways * winner.stake;
            sharing.winners.iter().any(|winner| cost(winner) > cost(largest))
        })
    };
    assert!(count(&sharings, costs_less) >= 10);
}

/// Live tickets that have no share and stand between tickets that have one, where
/// there are odd cents.
#[derive(Default)]
struct Others {
    finished: usize,
    cancelled: usize,
    running: usize,
}

impl Others {
    fn in_rolls(rolls: &[Vec<u8>]) -> Others {
        let mut others = Others::default();
        for roll in rolls {
            each_game(roll, |house, both| {
                both.iter().for_each(|sharing| others.count(house, sharing));
            });
        }
        others
    }

    fn count(&mut self, house: &House, sharing: &Sharing) {
        let numbers: Vec<u32> = sharing.winners.iter().map(|winner| winner.ticket).collect();
        if sharing.odd_cents() == 0 {
            return;
        }
        let between = numbers[0]..numbers[numbers.len() - 1];
        for ticket in house.live_tickets().filter(|ticket| between.contains(&ticket.number)) {
            if ticket.games.iter().any(|game| game.standing == Standing::TakenOff) {
                self.cancelled += 1;
            } else if ticket.is_finished() {
                self.finished += 1;
            } else if !numbers.contains(&ticket.number) {
                self.running += 1;
            }
        }
    }
}

/// Some have won before and are not claimed, some of those were cancelled, and some
/// run and win no share.
#[test]
fn other_tickets_between_winners() {
    let Others { finished, cancelled, running } = Others::in_rolls(&odd_cents::apart(SEED));
    assert!(
        finished >= 10 && cancelled >= 10 && running >= 10,
        "{finished}, {cancelled}, {running}"
    );
    let Others { running, .. } = Others::in_rolls(&odd_cents::winners(SEED));
    assert!(running >= 100, "{running}");
}

/// With larger stakes than those that pay for the game, and with smaller ones.
#[test]
fn free_games_share() {
    let sharings = sharings(&odd_cents::free_games(SEED));
    let stakes = |sharing: &Sharing, paid: bool| -> Vec<u64> {
        sharing.winners.iter().filter(|w| w.paid == paid).map(|w| w.stake).collect()
    };
    let free_is_larger = |sharing: &Sharing| {
        let paid = stakes(sharing, true);
        stakes(sharing, false).iter().any(|stake| paid.iter().any(|other| stake > other))
    };
    let paid_is_larger = |sharing: &Sharing| {
        let free = stakes(sharing, false);
        stakes(sharing, true).iter().any(|stake| free.iter().any(|other| stake > other))
    };
    assert!(count(&sharings, |s| s.odd_cents() > 0 && free_is_larger(s)) >= 3);
    assert!(count(&sharings, |s| s.odd_cents() > 0 && paid_is_larger(s)) >= 3);
}

/// Each winner is paid by a claim of its own, what was shared and nothing else.
#[test]
fn every_share_is_claimed() {
    for rolls in [odd_cents::winners(SEED), odd_cents::ways(SEED), odd_cents::apart(SEED)] {
        for roll in rolls {
            let mut primaries = 0;
            each_game(&roll, |_, both| {
                let shared = both.iter().filter(|sharing| !sharing.winners.is_empty());
                primaries += shared.map(|sharing| i128::from(sharing.primary)).sum::<i128>();
            });
            let mut house = House::fresh();
            reference::run_roll(&mut house, &roll, &mut vec![0; 14 * roll.len()]);
            let winners = house.tickets().iter().filter(|ticket| ticket.shares() > 0);
            assert!(winners.clone().all(|ticket| ticket.closing == Some(Closing::Claimed)));
            assert_eq!(winners.map(|ticket| ticket.shares()).sum::<i128>(), primaries);
        }
    }
}
