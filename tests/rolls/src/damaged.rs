//! Rolls that something has happened to: bytes changed, lost or put in, the
//! end torn off, unknown commands. Every one must be read up to the first place
//! where reading must stop.

use crate::mixed::mixed;
use crate::random::Random;
use reference::command::length;

/// So many mixed rolls, each damaged in one of six ways.
pub fn damaged_set(seed: u64, rolls: usize) -> Vec<Vec<u8>> {
    let mut random = Random::new(seed ^ 0xDA);
    (0..rolls)
        .map(|_| {
            let good = mixed(random.bits(), 250);
            damage(&mut random, &good)
        })
        .collect()
}

/// Damages a roll in one of six ways.
pub fn damage(random: &mut Random, good: &[u8]) -> Vec<u8> {
    let mut roll = good.to_vec();
    match random.below(6) {
        0 => flip_bits(random, &mut roll),
        1 => overwrite(random, &mut roll),
        2 => cut_off(random, &mut roll),
        3 => put_unknown_command(random, &mut roll),
        4 => lose_bytes(random, &mut roll),
        _ => repeat_part(random, &mut roll),
    }
    roll
}

fn place(random: &mut Random, roll: &[u8]) -> usize {
    random.below(roll.len() as u64) as usize
}

fn flip_bits(random: &mut Random, roll: &mut [u8]) {
    for _flip in 0..random.between(1, 20) {
        let place = place(random, roll);
        roll[place] ^= 1 << random.below(8);
    }
}

fn overwrite(random: &mut Random, roll: &mut [u8]) {
    for _byte in 0..random.between(1, 10) {
        let place = place(random, roll);
        roll[place] = random.byte();
    }
}

fn cut_off(random: &mut Random, roll: &mut Vec<u8>) {
    let place = place(random, roll);
    roll.truncate(place);
}

/// An unknown byte where a command should begin.
fn put_unknown_command(random: &mut Random, roll: &mut Vec<u8>) {
    let starts = command_starts(roll);
    let place = random.pick(&starts);
    let unknown = random.pick(&[0, 11, 12, 128, 255]);
    roll.insert(place, unknown);
}

fn lose_bytes(random: &mut Random, roll: &mut Vec<u8>) {
    let from = place(random, roll);
    let to = (from + random.between(1, 5) as usize).min(roll.len());
    roll.drain(from..to);
}

fn repeat_part(random: &mut Random, roll: &mut Vec<u8>) {
    let from = place(random, roll);
    let to = (from + random.between(1, 300) as usize).min(roll.len());
    let part = roll[from..to].to_vec();
    let at = place(random, roll);
    roll.splice(at..at, part);
}

/// Where the commands of a whole roll begin.
fn command_starts(roll: &[u8]) -> Vec<usize> {
    let mut starts = Vec::new();
    let mut place = 0;
    while place < roll.len() {
        starts.push(place);
        place += length(roll[place]).expect("a whole roll");
    }
    starts
}

/// Rolls of no sense at all: any bytes, and commands with any operands.
pub fn noise(seed: u64, rolls: usize) -> Vec<Vec<u8>> {
    let mut random = Random::new(seed ^ 0x0F);
    (0..rolls).map(|_| noise_roll(&mut random)).collect()
}

fn noise_roll(random: &mut Random) -> Vec<u8> {
    let bytes = random.below(400) as usize;
    if random.percent(50) {
        return (0..bytes).map(|_| random.byte()).collect();
    }
    // Small bytes make longer stretches of known commands.
    let mut roll = vec![1, 0, 1];
    roll.extend((0..bytes).map(|_| random.below(12) as u8));
    roll
}
