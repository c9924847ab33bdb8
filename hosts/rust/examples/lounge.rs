//! A host in Rust: a day with a journal, a ticket on 7, 8 and 9, a game, and the winner is paid.
use std::{env, error::Error, path::Path};
use wulipday::{Answer, Command, JournaledLounge, Kind, Sale};

fn main() -> Result<(), Box<dyn Error>> {
    let arguments: Vec<String> = env::args().collect();
    let [_, journal, day] = &arguments[..] else { return Err("usage: lounge JOURNAL DAY".into()) };
    // Begins a journal, or goes on where it ends.
    let mut lounge = JournaledLounge::open(Path::new(journal))?;
    let sale = Sale::new(Kind::Standard, 1, 100).group(&[7, 8, 9]);
    let mut commands = vec![Command::Open { day: day.parse()? }, Command::Sell(sale)];
    commands.extend((1..=20).map(|number| Command::Ball { number }));
    for command in commands {
        // What is answered here is in the journal.
        match lounge.give(&command)? {
            Ok(Answer::BallIn { .. }) => {}
            Ok(answer) => println!("{command}: {answer}"),
            Err(refusal) => println!("{command}: refused by {}: {refusal}", refusal.number()),
        }
    }
    for ticket in lounge.lounge().live_tickets() {
        if let Ok(answer) = lounge.give(&Command::Claim { ticket })? {
            println!("claim {ticket}: {answer}");
        }
    }
    println!("paid {} cents in all", lounge.lounge().till().paid);
    Ok(())
}
