//! "A year by the calendar": what finishes about a leap day, and about the
//! February of 2100, which has none.

use super::*;

pub const ALL: &[NamedCheck] = &[
    ("finished on 1 January 1998", finished_on_1_january_1998),
    ("finished on 1 March 1999", finished_on_1_march_1999),
    ("finished about 29 February 2000", finished_about_29_february_2000),
    ("finished about February 2100", finished_about_february_2100),
    ("finished about 2104", finished_about_2104),
];

/// Tickets that finish on some days, and days on which an Expire takes some of
/// them.
struct Dates<'a> {
    finished: &'a [u16],
    /// A day, and the finishing days of what expires on it.
    expiries: &'a [(u16, &'a [u16])],
}

impl Dates<'_> {
    /// What each ticket wins tells which of them has expired. What is left may
    /// be claimed up to the Expire itself.
    fn check(&self, flaw: Flaw) -> Check {
        let mut desk = Desk::closed(flaw);
        for (day, stake) in self.finished.iter().zip(STAKES) {
            desk.open(*day);
            desk.straight(0, 1, stake, &[1]);
            desk.draw(&FIRST_TWENTY);
        }
        for (day, finished) in self.expiries {
            desk.open(*day);
            let due = finished.iter().map(|day| 3 * u64::from(self.stake_of(*day))).sum();
            self.check_claims(&desk, finished)?;
            let wanted = Answer::accepted(finished.len() as u32, due);
            expect(&format!("day {day}"), desk.expire(), wanted)?;
            expect(&format!("day {day}, again"), desk.expire(), Answer::accepted(0, 0))?;
            for finished in *finished {
                let claim = desk.claim(self.ticket_of(*finished));
                expect("claim of an expired ticket", claim, Answer::refused(19))?;
            }
        }
        desk.difference
    }

    /// Nothing expires by itself: those about to can be claimed.
    fn check_claims(&self, desk: &Desk, finished: &[u16]) -> Check {
        let mut house = desk.house.clone();
        for day in finished {
            let ticket = self.ticket_of(*day);
            let paid = Answer::accepted(ticket, 3 * u64::from(self.stake_of(*day)));
            expect("claim before the Expire", house.command(&Command::Claim { ticket }), paid)?;
        }
        Ok(())
    }

    fn place_of(&self, day: u16) -> usize {
        self.finished.iter().position(|finished| *finished == day).expect("a finishing day")
    }

    fn ticket_of(&self, day: u16) -> u32 {
        self.place_of(day) as u32 + 1
    }

    fn stake_of(&self, day: u16) -> u32 {
        STAKES[self.place_of(day)]
    }
}

/// No two choices of these come to the same.
const STAKES: [u32; 6] = [100, 200, 400, 800, 1_600, 3_200];

/// No leap day comes between.
pub fn finished_on_1_january_1998(flaw: Flaw) -> Check {
    Dates { finished: &[1], expiries: &[(366, &[]), (367, &[1])] }.check(flaw)
}

/// "Finished on 1 March 1999, it still stands on 1 March 2000, 366 days after."
pub fn finished_on_1_march_1999(flaw: Flaw) -> Check {
    Dates { finished: &[425], expiries: &[(790, &[]), (791, &[]), (792, &[425])] }.check(flaw)
}

/// 27, 28 and 29 February and 1 March 2000: 28 February 2001 is the last day of
/// the second and the third.
pub fn finished_about_29_february_2000(flaw: Flaw) -> Check {
    let finished = &[788, 789, 790, 791];
    let expiries: &[(u16, &[u16])] =
        &[(1_154, &[]), (1_155, &[788]), (1_156, &[789, 790]), (1_157, &[791])];
    Dates { finished, expiries }.check(flaw)
}

/// 28 February and 1 March of 2099 and of 2100, each a year on.
pub fn finished_about_february_2100(flaw: Flaw) -> Check {
    let of_2099 = Dates {
        finished: &[36_949, 36_950],
        expiries: &[(37_314, &[]), (37_315, &[36_949]), (37_316, &[36_950])],
    };
    of_2099.check(flaw)?;
    let of_2100 = Dates {
        finished: &[37_314, 37_315],
        expiries: &[(37_679, &[]), (37_680, &[37_314]), (37_681, &[37_315])],
    };
    of_2100.check(flaw)
}

/// The leap year after: 28 February and 1 March 2103, then 28 and 29 February and
/// 1 March 2104.
pub fn finished_about_2104(flaw: Flaw) -> Check {
    let of_2103 = Dates {
        finished: &[38_409, 38_410],
        expiries: &[(38_774, &[]), (38_775, &[38_409]), (38_776, &[]), (38_777, &[38_410])],
    };
    of_2103.check(flaw)?;
    let of_2104 = Dates {
        finished: &[38_774, 38_775, 38_776],
        expiries: &[(39_140, &[]), (39_141, &[38_774, 38_775]), (39_142, &[38_776])],
    };
    of_2104.check(flaw)
}
