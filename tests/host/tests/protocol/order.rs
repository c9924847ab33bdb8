//! The order in which refusals are checked. Commands are given to houses in which
//! several refusals hold at once, each told here by a test of its own; the reference
//! must give the first of them in the document's order.

use crate::document::{number, same, Document};
use crate::Checked;
use reference::price::{charge, stake_in_order};
use reference::{Command, House, Kind, Sale, Standing, Ticket};
use rolls::RollWriter;
use std::collections::BTreeSet;
use std::sync::OnceLock;

/// The commands by their bytes, and what is no command.
const ASKED: [&str; 11] = [
    "Open",
    "Sell",
    "Cancel",
    "Ball",
    "Claim",
    "Expire",
    "Transfer",
    "Lucky Last",
    "Collect",
    "Call off",
    "Live list",
];

/// Neighbours in an order that never hold together.
const APART: [(u8, u8); 5] = [(4, 26), (18, 19), (19, 23), (26, 27), (33, 34)];

/// A command that was given: its byte, the refusals that hold, and its code.
#[derive(PartialEq, Eq, PartialOrd, Ord)]
struct Case {
    byte: u8,
    holding: BTreeSet<u8>,
    code: u8,
}

pub fn order(document: &Document) -> Checked {
    static CASES: OnceLock<BTreeSet<Case>> = OnceLock::new();
    let cases = CASES.get_or_init(cases);
    let rows = document.table("Asked", "Checked in this order");
    let asked: Vec<&str> = rows.iter().map(|row| row[0]).collect();
    same("what is checked", &asked[..], &ASKED[..])?;
    let (live_list, commands) = rows.split_last().ok_or("nothing is checked")?;
    for (row, byte) in commands.iter().zip(1..) {
        let order = codes(row[1])?;
        let cases: Vec<&Case> = cases.iter().filter(|case| case.byte == byte).collect();
        for case in &cases {
            let first = order.iter().find(|code| case.holding.contains(code)).copied();
            same(
                &format!("{} where {:?} hold", row[0], case.holding),
                first.unwrap_or(0),
                case.code,
            )?;
        }
        shown(row[0], &order, &cases)?;
    }
    let buffer = house_with_a_ticket().live_list(&mut [0; 3]);
    same("Live list", codes(live_list[1])?, buffer.err().into_iter().collect())
}

fn codes(cell: &str) -> Result<Vec<u8>, String> {
    cell.split(", ").map(|code| number(code).map(|code| code as u8)).collect()
}

/// The cases tell each two neighbours of an order apart.
fn shown(asked: &str, order: &[u8], cases: &[&Case]) -> Checked {
    for pair in order.windows(2) {
        let both = |case: &&&Case| pair.iter().all(|code| case.holding.contains(code));
        let is_shown = cases.iter().find(both).is_some() || APART.contains(&(pair[0], pair[1]));
        same(&format!("{asked}: {} before {}", pair[0], pair[1]), true, is_shown)?;
    }
    Ok(())
}

fn house_with_a_ticket() -> House {
    let mut writer = RollWriter::opened();
    writer.straight(0, 1, 100, &[1]);
    writer.house().clone()
}

/// Those that differ.
fn cases() -> BTreeSet<Case> {
    let sales = sales();
    let mut cases = BTreeSet::new();
    for house in houses() {
        let mut commands = other_commands();
        commands.extend(sales.iter().cloned());
        for command in commands {
            let holding = holding(&house, &command);
            let code = house.clone().command(&command).code;
            cases.insert(Case { byte: command.byte(), holding, code });
        }
    }
    cases
}

/// Houses before the first day, on a later one, while drawing, full, and at the ends
/// of the numbers.
fn houses() -> Vec<House> {
    let mut houses = vec![House::fresh(), House::seasoned(1, House::LAST_GAME, 0)];
    houses.extend([false, true].map(tickets_of_every_sort));
    let mut full =
        RollWriter::on(House::seasoned(5, House::LAST_GAME - 1, House::LAST_TICKET - 200));
    for _ticket in 0..200 {
        full.straight(0, 1, 100, &[1]);
    }
    houses.push(full.house().clone());
    houses.push(a_game_called_off());
    houses
}

/// Tickets 1 to 4: one whose only game was called off, one with games left, a Keno To Go that
/// began with it, and one that was sold while it was drawn and waits.
fn a_game_called_off() -> House {
    let mut writer = RollWriter::opened();
    for games in [1, 2, 50] {
        writer.straight(0, games, 100, &[1]);
    }
    writer.ball(1);
    writer.straight(0, 50, 100, &[1]);
    writer.call_off();
    writer.house().clone()
}

/// Tickets 1 to 9: claimed, two that are due, a Keno To Go of an earlier day, one of
/// today that has its last game to draw, another that was collected, one sold last, a
/// Keno To Go that waits, and the one game of the collected ticket.
fn tickets_of_every_sort(drawing: bool) -> House {
    let mut writer = RollWriter::opened();
    let twenty: Vec<u8> = (1..=20).collect();
    for games in [1, 1, 49, 70] {
        writer.straight(0, games, 100, &[1]);
    }
    writer.balls(&twenty);
    writer.claim(1);
    writer.open(2);
    writer.straight(0, 50, 100, &[1]);
    writer.straight(0, 50, 100, &[1]);
    (0..49).for_each(|_| writer.balls(&twenty));
    writer.straight(0, 2, 100, &[80]);
    writer.straight(0, 50, 100, &[80]);
    writer.collect(6);
    if drawing {
        writer.balls(&[2, 3]);
    }
    writer.house().clone()
}

fn other_commands() -> Vec<Command> {
    let mut commands = vec![Command::Expire, Command::CallOff];
    commands.extend([0, 1, 2, 3, 7].map(|day| Command::Open { day }));
    commands.extend([0, 1, 2, 80, 81, 255].map(|number| Command::Ball { number }));
    for ticket in (0..=10).chain([House::LAST_TICKET, u32::MAX]) {
        commands.extend([Command::Cancel { ticket }, Command::Claim { ticket }]);
        commands.push(Command::Collect { ticket });
    }
    for jackpot in [0, 6, 7, 8] {
        commands.extend([0, 1, u32::MAX].map(|cents| Command::Transfer { jackpot, cents }));
    }
    commands
}

/// Every mixture of operands that are in order and operands that are not, without a
/// feature stake and with one.
fn sales() -> Vec<Command> {
    let sixteen: Vec<u8> = (1..=16).collect();
    let shapes: [(Vec<&[u8]>, u8); 7] = [
        (vec![&[1, 2, 3]], 1),
        (vec![&sixteen], 1),
        (vec![&sixteen], 0),
        (vec![&sixteen], 3),
        (vec![&[1, 2, 3], &[4, 5, 6]], 1),
        (vec![&sixteen, &[]], 4),
        (vec![&[1], &[2], &[3], &[4], &[5], &[6], &[7], &[8]], 255),
    ];
    let mut sales = Vec::new();
    for kind in [0, 1, 2, 3, 4] {
        for games in [0, 1, 100, 101] {
            for stake in [0, 10, 100, 150, 999_900, 1_000_000, 1_000_050] {
                for (groups, types) in &shapes {
                    let sale = Sale::new(kind, games, stake, groups, *types);
                    sales.extend(other_group_counts(&sale));
                    sales.push(sale);
                }
            }
        }
    }
    sales.iter().flat_map(with_feature_stakes).map(Command::Sell).collect()
}

/// The same sale with a count of groups that its marks do not have.
fn other_group_counts(sale: &Sale) -> [Sale; 3] {
    [0, 1, 9].map(|groups| Sale { groups, ..sale.clone() })
}

/// The same sale as it is, and as a Lucky Last.
fn with_feature_stakes(sale: &Sale) -> [Sale; 5] {
    let stakes = [None, Some(0), Some(100), Some(150), Some(999_900)];
    stakes.map(|feature_stake| Sale { feature_stake, ..sale.clone() })
}

/// The refusals that hold, by what their rows in the document say.
fn holding(house: &House, command: &Command) -> BTreeSet<u8> {
    let told = match command {
        Command::Open { day } => vec![(5, *day <= house.today()), (6, house.is_drawing())],
        Command::Sell(sale) => of_a_sale(house, sale),
        Command::Cancel { ticket } => of_a_cancel(house, *ticket),
        Command::Claim { ticket } => of_a_claim(house, *ticket),
        Command::Collect { ticket } => of_a_collection(house, *ticket),
        Command::Ball { number } => vec![
            (25, *number == 0 || *number > 80),
            (26, house.game() > House::LAST_GAME),
            (27, house.balls().contains(number)),
        ],
        Command::Expire => Vec::new(),
        Command::CallOff => vec![(26, house.game() > House::LAST_GAME)],
        Command::Transfer { jackpot, cents } => vec![
            (28, *jackpot != 6 && *jackpot != 8),
            (6, house.is_drawing()),
            (29, *cents == 0 || i128::from(*cents) > house.unclaimed()),
        ],
    };
    let no_day = (4, house.today() == 0 && !matches!(command, Command::Open { .. }));
    let told = told.into_iter().chain([no_day]);
    told.filter(|(_, holds)| *holds).map(|(code, _)| code).collect()
}

fn of_a_sale(house: &House, sale: &Sale) -> Vec<(u8, bool)> {
    let Sale { kind, games, stake, groups, types, marks, feature_stake } = sale;
    let sizes = sizes(*groups, *types, marks);
    let known_kind = Kind::from_byte(*kind);
    let stake = i128::from(*stake);
    let game_price = stake * sizes.len() as i128 + feature_stake.map_or(0, i128::from);
    let in_order = |kind: Kind| stake_in_order(kind, sizes.len(), stake);
    let is_empty = |group: u8| !marks.contains(&group);
    let last_game = house.game() + u32::from(house.is_drawing()) + u32::from(*games).max(1) - 1;
    vec![
        (7, *kind > 3),
        (8, *games == 0 || *games > 100),
        (9, *groups == 0 || *groups > 8),
        (10, marks.iter().any(|mark| mark > groups) || (1..=*groups).any(is_empty)),
        (11, *types == 0 || u32::from(*types) >> groups.min(&8) != 0),
        (12, known_kind.is_some_and(|kind| !kind.allows_sizes(&sizes))),
        (13, *kind == 2 && sizes.len() == 1),
        (14, known_kind.is_some_and(|kind| !in_order(kind))),
        (15, charge(game_price, u32::from(*games)) > 999_900),
        (16, house.live_tickets().count() >= 200),
        (17, house.issued() >= House::LAST_TICKET || last_game > House::LAST_GAME),
        (31, feature_stake.is_some() && (*kind != 0 || sizes.len() > 1)),
        (32, feature_stake.is_some_and(|stake| stake == 0 || stake % 100 != 0)),
    ]
}

/// The sizes of the ways, whatever the marks.
fn sizes(groups: u8, types: u8, marks: &[u8]) -> Vec<usize> {
    let sets = (1u32..1 << groups.min(8)).filter(|set| types >> (set.count_ones() - 1) & 1 == 1);
    let has = |set: u32, mark: u8| (1..=8).contains(&mark) && set >> (mark - 1) & 1 == 1;
    sets.map(|set| marks.iter().filter(|&&mark| has(set, mark)).count()).collect()
}

fn of_a_cancel(house: &House, number: u32) -> Vec<(u8, bool)> {
    let mut told = of_a_number(house, number);
    if let Some(ticket) = ticket(house, number) {
        told.extend([
            (20, ticket.sold_on < house.today()),
            (21, ticket.terms.games >= 50 && has_begun(house, ticket)),
            (22, !can_take_off(house, ticket)),
        ]);
    }
    told
}

fn of_a_claim(house: &House, number: u32) -> Vec<(u8, bool)> {
    let mut told = of_a_number(house, number);
    if let Some(ticket) = ticket(house, number) {
        told.push((23, !ticket.is_finished()));
    }
    told
}

fn of_a_collection(house: &House, number: u32) -> Vec<(u8, bool)> {
    let mut told = of_a_number(house, number);
    told.push((35, house.issued() >= House::LAST_TICKET));
    if let Some(ticket) = ticket(house, number) {
        told.extend([(33, ticket.is_finished()), (34, ticket.is_live() && ticket.due() == 0)]);
    }
    told
}

/// A number that was issued and that no ticket of the house has was sold and
/// cancelled before the house was begun.
fn of_a_number(house: &House, number: u32) -> Vec<(u8, bool)> {
    let is_issued = (1..=house.issued()).contains(&number);
    let is_live = ticket(house, number).is_some_and(Ticket::is_live);
    vec![(18, !is_issued), (19, is_issued && !is_live)]
}

fn ticket(house: &House, number: u32) -> Option<&Ticket> {
    house.tickets().iter().find(|ticket| ticket.number == number)
}

/// A ticket that was reissued has begun, whichever games are left, and one whose first game
/// was drawn or called off.
fn has_begun(house: &House, ticket: &Ticket) -> bool {
    let first = ticket.first_game();
    !ticket.is_sold() || first < house.game() || first == house.game() && house.is_drawing()
}

fn can_take_off(house: &House, ticket: &Ticket) -> bool {
    let is_drawn_now = |game: u32| house.is_drawing() && game == house.game();
    let mut games = ticket.games.iter();
    games.any(|game| game.standing == Standing::Waiting && !is_drawn_now(game.number))
}
