//! Lines of a roll in words: what each stands for, and what is said of a bad
//! one.

use wulipday::words::{encode, BadLine};
use wulipday::{Command, Kind, Sale};

/// A sale with these groups, whatever its kind's byte.
fn sale(kind: u8, games: u8, stake: u32, groups: &[&[u8]], types: u8) -> Command {
    Command::Sell(terms(kind, games, stake, groups, types))
}

fn lucky_last(kind: u8, stake: u32, groups: &[&[u8]], types: u8, feature: u32) -> Command {
    Command::Sell(terms(kind, 1, stake, groups, types).lucky_last(feature))
}

fn terms(kind: u8, games: u8, stake: u32, groups: &[&[u8]], types: u8) -> Sale {
    let blank = Sale { kind, types, ..Sale::new(Kind::Standard, games, stake) };
    groups.iter().fold(blank, |sale, numbers| sale.group(numbers))
}

#[test]
fn every_command() {
    let pair: &[u8] = &[4, 5];
    let rows = [
        ("open 65535", vec![Command::Open { day: 65_535 }]),
        (
            "sell standard games 5 stake 200 groups 1,2,3 / 4,5 types 1",
            vec![sale(0, 5, 200, &[&[1, 2, 3], pair], 1)],
        ),
        (
            "sell 255 games 255 stake 4294967295 groups 80 types 255",
            vec![sale(255, 255, u32::MAX, &[&[80]], 255)],
        ),
        (
            "sell jackpot games 1 stake 1 groups 1, 2 /3 types 2 # two groups",
            vec![sale(1, 1, 1, &[&[1, 2], &[3]], 2)],
        ),
        ("sell special-one games 1 stake 1 groups 1 types 0", vec![sale(2, 1, 1, &[&[1]], 0)]),
        ("sell special-two games 1 stake 1 groups 1 types 0", vec![sale(3, 1, 1, &[&[1]], 0)]),
        (
            "sell standard games 1 stake 100 groups 1,2,3 / 4,5 types 2 feature 200",
            vec![lucky_last(0, 100, &[&[1, 2, 3], pair], 2, 200)],
        ),
        (
            "sell jackpot games 1 stake 1 groups 80 types 1 feature 4294967295# refused",
            vec![lucky_last(1, 1, &[&[80]], 1, u32::MAX)],
        ),
        (
            "sell 0 games 1 stake 1 groups 1 types 1 feature 0",
            vec![lucky_last(0, 1, &[&[1]], 1, 0)],
        ),
        ("  cancel 7", vec![Command::Cancel { ticket: 7 }]),
        ("balls 80 0", vec![Command::Ball { number: 80 }, Command::Ball { number: 0 }]),
        ("claim 4294967295#", vec![Command::Claim { ticket: u32::MAX }]),
        ("expire", vec![Command::Expire]),
        ("transfer 6 5000", vec![Command::Transfer { jackpot: 6, cents: 5_000 }]),
        ("collect 3 # part way", vec![Command::Collect { ticket: 3 }]),
        ("call  off# an alarm", vec![Command::CallOff]),
        ("", vec![]),
        ("# open 1", vec![]),
    ];
    for (line, commands) in rows {
        let bytes = commands.iter().flat_map(Command::encode).collect();
        assert_eq!(encode(line), Ok(bytes), "{line}");
    }
    assert_eq!(encode("open 1\n# a comment\n\nballs 1 2\n"), Ok(vec![1, 0, 1, 4, 1, 4, 2]));
}

#[test]
fn bad_lines_are_named() {
    let rows = [
        (
            "opn 1",
            "there is no command \"opn\": expected open, sell, cancel, balls, claim, expire, transfer, collect or call off",
        ),
        ("open", "a number is missing: the day"),
        ("open 65536", "the day must be a number from 0 to 65535, not \"65536\""),
        ("open +1", "the day must be a number from 0 to 65535, not \"+1\""),
        ("open 1 2", "\"2\" is one word too many"),
        ("balls", "a number is missing: the first ball"),
        ("balls 1 256", "a ball must be a number from 0 to 255, not \"256\""),
        ("sell gold", "the kind must be a number from 0 to 255, not \"gold\""),
        ("sell standard stake 1", "\"games\" should stand where \"stake\" does"),
        ("sell standard games 1 stake 1 groups 1", "\"types\" is missing"),
        (
            "sell standard games 1 stake 1 groups 81 types 1",
            "a marked number must be a number from 1 to 80, not \"81\"",
        ),
        (
            "sell standard games 1 stake 1 groups types 1",
            "a marked number must be a number from 1 to 80, not \"\"",
        ),
        ("sell standard games 1 stake 1 groups 1/2,1 types 1", "1 is marked twice"),
        (
            "sell standard games 1 stake 1 groups 1 types 1 100",
            "\"feature\" should stand where \"100\" does",
        ),
        (
            "sell standard games 1 stake 1 groups 1 types 1 feature",
            "a number is missing: the feature stake",
        ),
        (
            "sell standard games 1 stake 1 groups 1 types 1 feature 4294967296",
            "the feature stake must be a number from 0 to 4294967295, not \"4294967296\"",
        ),
        (
            "sell standard games 1 stake 1 groups 1 types 1 feature 1 1",
            "\"1\" is one word too many",
        ),
        ("transfer 6", "a number is missing: the cents"),
        ("collect", "a number is missing: the ticket"),
        ("collect 1 2", "\"2\" is one word too many"),
        ("call", "\"off\" is missing"),
        ("call 7", "\"off\" should stand where \"7\" does"),
        ("call off 7", "\"7\" is one word too many"),
    ];
    for (line, reason) in rows {
        let text = format!("open 1\n\n{line}\nopen 2\n");
        assert_eq!(encode(&text), Err(BadLine { number: 3, reason: reason.into() }), "{line}");
    }
}
