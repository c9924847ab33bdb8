//! The sample roll: its bytes, what the ledger prints for it, the answers that
//! its comments give, and all that it is there to show.

use reference::command::{
    BALL, CALL_OFF, CANCEL, CLAIM, COLLECT, EXPIRE, LUCKY_LAST, OPEN, SELL, TRANSFER,
};
use reference::settlement::Settlement;
use reference::{ledger, Answer, Command, House};
use rolls::coverage::CODES;
use wulipday::words::{encode, read_lines, Line};

const SAMPLE: &str = include_str!("../../../samples/evening.txt");
const ROLL: &[u8] = include_bytes!("../../../crates/ledger/stdin");
const PRINT: &str = include_str!("../../../crates/ledger/stdout");

fn lines() -> Vec<Line<'static>> {
    read_lines(SAMPLE).expect("the sample has no bad line")
}

#[test]
fn the_ledger_gets_the_bytes_of_the_sample() {
    assert!(encode(SAMPLE).expect("no bad line") == ROLL, "encode samples/evening.txt again");
}

#[test]
fn the_ledger_is_to_print_what_the_reference_prints() {
    assert_eq!(ledger(ROLL), PRINT);
}

/// Behind each command stands its line of the print, behind balls that of the
/// last; and the till's line stands in a comment too.
#[test]
fn the_comments_give_the_true_answers() {
    let mut printed = PRINT.lines();
    for line in lines().iter().filter(|line| !line.commands.is_empty()) {
        let answer = printed.by_ref().nth(line.commands.len() - 1).expect("an answer each");
        let comment = line.comment.expect("a comment behind each command");
        let said: Vec<&str> = comment.split_whitespace().take(4).collect();
        assert_eq!(said.join(" "), answer, "line {}", line.number);
    }
    for end in printed {
        let is_end = |line: &Line| line.comment.is_some_and(|comment| comment.trim() == end);
        assert!(lines().iter().any(is_end), "no comment says {end:?}");
    }
}

/// A command as it was given.
struct Given {
    command: Command,
    answer: Answer,
    drawing: bool,
    /// How the game ended, if this ended one.
    settlement: Option<Settlement>,
}

fn run() -> Vec<Given> {
    let mut house = House::fresh();
    let commands = lines().into_iter().flat_map(|line| line.commands);
    let commands = commands.map(|command| Command::decode(&command.encode()));
    let give = |command: Command| {
        let drawing = house.is_drawing();
        let game = house.game();
        let answer = house.command(&command);
        let ended = house.game() != game && command != Command::CallOff;
        let settlement = house.last_settlement().filter(|_| ended).cloned();
        Given { command, answer, drawing, settlement }
    };
    commands.map(give).collect()
}

#[test]
fn every_command_is_accepted_and_refused() {
    let given = run();
    assert!(given.len() >= 300, "{} commands", given.len());
    let codes_of = |byte: u8| {
        let of = given.iter().filter(move |given| given.command.byte() == byte);
        of.map(|given| given.answer.code).collect::<Vec<u8>>()
    };
    let bytes = [OPEN, SELL, CANCEL, BALL, CLAIM, EXPIRE, TRANSFER, LUCKY_LAST, COLLECT, CALL_OFF];
    for byte in bytes {
        assert!(codes_of(byte).contains(&0), "command {byte} is never accepted");
    }
    // 10 takes marks that words can't say, 16 takes 200 tickets, 17 and 26 take ten
    // million games, and 35 as many tickets.
    let left_out = [(SELL, 10), (SELL, 16), (SELL, 17), (BALL, 26), (COLLECT, 35), (CALL_OFF, 26)];
    for (byte, codes) in CODES {
        // Those that a Lucky Last shares with a Sell are shown by a Sell.
        let is_shared = |code: u8| byte == LUCKY_LAST && (7..=17).contains(&code);
        for &code in codes.iter().filter(|&&code| code != 4 && !is_shared(code)) {
            let shown = codes_of(byte).contains(&code);
            assert_eq!(shown, !left_out.contains(&(byte, code)), "command {byte}, code {code}");
        }
    }
    assert!(codes_of(SELL).contains(&4));
}

#[test]
fn the_sample_shows_what_it_says() {
    let given = run();
    let shows = |what: &str, found: &dyn Fn(&Given) -> bool| {
        assert!(given.iter().any(found), "the sample shows no {what}");
    };
    let settled = |given: &Given, found: &dyn Fn(&Settlement) -> bool| {
        given.settlement.as_ref().is_some_and(found)
    };
    let accepted = |given: &Given, byte: u8| given.command.byte() == byte && given.answer.code == 0;
    shows("win", &|given| accepted(given, CLAIM) && given.answer.cents > 0);
    shows("cut", &|given| settled(given, &|game| 0 < game.floored && game.floored < game.majors));
    shows("jackpot hit", &|given| {
        settled(given, &|game| game.winnings.iter().any(|w| w.shares > 0))
    });
    shows("feature prize", &|given| {
        settled(given, &|game| game.winnings.iter().any(|w| w.feature > 0))
    });
    shows("seed", &|given| settled(given, &|game| game.seeded > 0));
    shows("cancel while drawing", &|given| accepted(given, CANCEL) && given.drawing);
    for drawing in [false, true] {
        shows("collection", &|given| accepted(given, COLLECT) && given.drawing == drawing);
    }
    shows("game called off for which something is due", &|given| {
        accepted(given, CALL_OFF) && given.drawing && given.answer.cents > 0
    });
    shows("expiry", &|given| accepted(given, EXPIRE) && given.answer.number > 0);
    for jackpot in [6, 8] {
        shows("transfer", &|given| accepted(given, TRANSFER) && given.answer.number == jackpot);
    }
    for wanted in 0..=3 {
        let is_sold = |given: &Given| {
            accepted(given, SELL)
                && matches!(&given.command, Command::Sell(sale) if sale.kind == wanted)
        };
        shows("ticket of some kind", &is_sold);
    }
}
