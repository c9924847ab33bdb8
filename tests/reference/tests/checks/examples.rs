//! "Settled examples": every line with a dot, with those changed and asked for
//! since, and the printed ledger.

use super::*;
use reference::ledger::ledger_of;
use reference::prizes::cut;

pub const ALL: &[NamedCheck] = &[
    ("charges", charges),
    ("seven of eight at 200", seven_of_eight_at_200),
    ("cut of two caps and 30,000", cut_of_two_caps_and_30_000),
    ("cut of three caps", cut_of_three_caps),
    ("majors of exactly 5,000,000", majors_of_exactly_5_000_000),
    ("251 equal majors", equal_majors_251),
    ("one six hits", one_six_hits),
    ("sixes at 100 and 200 hit", sixes_at_100_and_200_hit),
    ("sixes at 100, 300 and 200 hit", sixes_at_100_300_and_200_hit),
    ("printed ledger", printed_ledger),
];

const FIFTEEN: [u8; 15] = [1, 2, 3, 4, 5, 6, 7, 8, 9, 10, 11, 12, 13, 14, 15];

/// 5 games at 200, one way: 1,000. 49, 50, 99, 100 games at 100: 4,900, 4,900,
/// 9,800, 9,800.
pub fn charges(flaw: Flaw) -> Check {
    let rows =
        [(5, 200, 1_000), (49, 100, 4_900), (50, 100, 4_900), (99, 100, 9_800), (100, 100, 9_800)];
    let mut desk = Desk::new(flaw);
    for (games, stake, charge) in rows {
        let answer = desk.sell(0, games, stake, &[&[1, 2, 3]], STRAIGHT);
        expect(&format!("charge of {games} games"), (answer.code, answer.cents), (0, charge))?;
    }
    desk.difference
}

/// Kind 0, 8 numbers, 7 matched, stake 200: 111,000.
pub fn seven_of_eight_at_200(flaw: Flaw) -> Check {
    let mut desk = Desk::new(flaw);
    let ticket = desk.straight(0, 1, 200, &[1, 2, 3, 4, 5, 6, 7, 80]);
    expect("twentieth ball", desk.draw(&FIRST_TWENTY), Answer::accepted(20, 111_000))?;
    expect("claim", desk.pays(ticket), 111_000)?;
    desk.difference
}

/// Majors 5,000,000, 5,000,000, 30,000 become 2,490,000, 2,490,000, 20,000.
pub fn cut_of_two_caps_and_30_000(flaw: Flaw) -> Check {
    let majors = [5_000_000, 5_000_000, 30_000];
    expect("cut", cut(&majors, flaw).prizes, vec![2_490_000, 2_490_000, 20_000])?;

    // 15 of 15 at 100, twice, and $50 for 5 of 6 at 600.
    let mut desk = Desk::new(flaw);
    let caps = [desk.straight(0, 1, 100, &FIFTEEN), desk.straight(0, 1, 100, &FIFTEEN)];
    let small = desk.straight(0, 1, 600, &[1, 2, 3, 4, 5, 80]);
    expect("twentieth ball", desk.draw(&FIRST_TWENTY).cents, 5_000_000)?;
    expect("first cap", desk.pays(caps[0]), 2_490_000)?;
    expect("second cap", desk.pays(caps[1]), 2_490_000)?;
    expect("30,000", desk.pays(small), 20_000)?;
    desk.difference
}

/// Three of 5,000,000: 1,666,666 each. The two odd cents are retained.
pub fn cut_of_three_caps(flaw: Flaw) -> Check {
    expect("cut", cut(&[5_000_000; 3], flaw).prizes, vec![1_666_666; 3])?;

    let mut desk = Desk::new(flaw);
    let caps: Vec<u32> = (0..3).map(|_| desk.straight(0, 1, 100, &FIFTEEN)).collect();
    desk.draw(&FIRST_TWENTY);
    for ticket in caps {
        expect("claim", desk.pays(ticket), 1_666_666)?;
    }
    expect("retained", desk.house.till()[8], 300 - 4_999_998)?;
    desk.difference
}

/// Majors of exactly 5,000,000 together: uncut. One cent more is cut.
pub fn majors_of_exactly_5_000_000(flaw: Flaw) -> Check {
    let together = [4_000_000, 979_999, 20_001];
    expect("cut", cut(&together, flaw).prizes, together.to_vec())?;
    let over = [4_000_000, 980_000, 20_001];
    expect("cut", cut(&over, flaw).prizes, vec![3_999_999, 979_999, 20_000])?;

    // $3,000 for 8 of 9, $20,000 for 12 of 13, and $1,500 for 9 of 11 at $18.
    let mut desk = Desk::new(flaw);
    let tickets = [
        desk.straight(0, 1, 100, &[1, 2, 3, 4, 5, 6, 7, 8, 80]),
        desk.straight(0, 1, 100, &[1, 2, 3, 4, 5, 6, 7, 8, 9, 10, 11, 12, 80]),
        desk.straight(0, 1, 1_800, &[1, 2, 3, 4, 5, 6, 7, 8, 9, 79, 80]),
    ];
    expect("twentieth ball", desk.draw(&FIRST_TWENTY).cents, 5_000_000)?;
    for (ticket, prize) in tickets.into_iter().zip([300_000, 2_000_000, 2_700_000]) {
        expect("claim", desk.pays(ticket), prize)?;
    }
    desk.difference
}

/// 251 equal majors get 20,000 each, 5,020,000 together.
pub fn equal_majors_251(flaw: Flaw) -> Check {
    for prize in [20_000, 30_000, 5_000_000] {
        let cut = cut(&[prize; 251], flaw);
        expect("cut", cut.prizes.clone(), vec![20_000; 251])?;
        expect("together", cut.prizes.iter().sum(), 5_020_000)?;
    }
    expect("250 equal majors", cut(&[30_000; 250], flaw).prizes, vec![20_000; 250])
}

/// Fresh house, one 100-cent six hits: pays 100,015, seed 99,995, debt 199,990.
pub fn one_six_hits(flaw: Flaw) -> Check {
    let mut desk = Desk::new(flaw);
    let ticket = desk.straight(1, 1, 100, &[1, 2, 3, 4, 5, 6]);
    expect("twentieth ball", desk.draw(&FIRST_TWENTY), Answer::accepted(20, 100_015))?;
    expect("seed", desk.house.till()[1] - 1_350_000, 99_995)?;
    let six = &desk.house.pools().six;
    expect("debt", six.debt, 199_990)?;
    expect("pools", (six.primary, six.secondary, six.reimbursement), (100_000, 0, 0))?;
    expect("claim", desk.pays(ticket), 100_015)?;
    desk.difference
}

/// Fresh house, sixes at 100 and 200 hit: 33,348 and 66,697 (ticket 1 has the
/// smaller). The odd cent goes to the larger stake.
pub fn sixes_at_100_and_200_hit(flaw: Flaw) -> Check {
    let mut desk = Desk::new(flaw);
    let smaller = desk.straight(1, 1, 100, &[1, 2, 3, 4, 5, 6]);
    let larger = desk.straight(1, 1, 200, &[7, 8, 9, 10, 11, 12]);
    expect("twentieth ball", desk.draw(&FIRST_TWENTY).cents, 100_045)?;
    expect("ticket 1", desk.pays(smaller), 33_348)?;
    expect("ticket 2", desk.pays(larger), 66_697)?;
    desk.difference
}

/// The same with a third: the largest stake is the second by number.
pub fn sixes_at_100_300_and_200_hit(flaw: Flaw) -> Check {
    let mut desk = Desk::new(flaw);
    let tickets = [100, 300, 200].map(|stake| desk.straight(1, 1, stake, &[1, 2, 3, 4, 5, 6]));
    expect("twentieth ball", desk.draw(&FIRST_TWENTY).cents, 100_090)?;
    for (ticket, share) in tickets.into_iter().zip([16_681, 50_046, 33_363]) {
        expect(&format!("ticket {ticket}"), desk.pays(ticket), share)?;
    }
    desk.difference
}

/// The roll of "The roll", byte by byte.
pub fn printed_roll() -> Vec<u8> {
    let mut roll = vec![0x01, 0, 1];
    roll.extend([0x02, 0, 1, 0, 0, 0, 100, 1, 1]);
    roll.push(1);
    roll.extend([0; 79]);
    roll.extend([0x03, 0, 0, 0, 1]);
    roll.extend([0x05, 0, 0, 0, 1]);
    roll
}

pub const PRINTED_LEDGER: &str = "\
1 0 1 0
2 0 1 100
3 0 1 100
5 19 0 0
stop 0
till 100 1350000 0 100 0 0 0 1350000 0
";

pub fn printed_ledger(flaw: Flaw) -> Check {
    let print = ledger_of(&mut House::flawed(flaw), &printed_roll());
    expect("print", print.as_str(), PRINTED_LEDGER)
}
