//! One command as bytes: `answers` tells whether it was done, and the stop only
//! what comes behind it.

use wulipday::{Command, Lounge, Record, Report, Stop, ANSWER_BYTES};

const BLANK: u8 = 0xA5;

/// A house in which ticket 1 has won.
fn won() -> Lounge {
    let mut lounge = Lounge::fresh();
    let roll = wulipday::words::encode(
        "open 1\nsell standard games 1 stake 100 groups 1 types 1\n\
         balls 1 2 3 4 5 6 7 8 9 10 11 12 13 14 15 16 17 18 19 20\n",
    );
    let roll = roll.expect("commands");
    lounge.roll(&roll, &mut [0; 22 * ANSWER_BYTES]);
    assert_eq!(lounge.till().owed, 300);
    lounge
}

/// A claim of ticket 1 with these bytes behind it is carried out.
fn claim_before(behind: &[u8], stop: Stop) {
    let mut lounge = won();
    let mut answer = [BLANK; ANSWER_BYTES];
    let bytes = [&[5, 0, 0, 0, 1], behind].concat();
    let report = lounge.command(&bytes, &mut answer);
    assert_eq!(report, Report { stop, read: 5, answers: 1 });
    assert_eq!(Record::read(&answer), Record { command: 5, code: 0, number: 1, cents: 300 });
    assert_eq!((lounge.till().paid, lounge.till().owed), (300, 0));
    assert!(lounge.give(&Command::Claim { ticket: 1 }).is_err());
    // A refused one is answered too, and changes nothing.
    let before = lounge.clone();
    let report = lounge.command(&bytes, &mut answer);
    assert_eq!(report, Report { stop, read: 5, answers: 1 });
    assert_eq!(answer[..2], [5, 19]);
    assert!(lounge == before);
}

#[test]
fn a_whole_command_is_done_whatever_comes_behind() {
    claim_before(&[], Stop::End);
    claim_before(&[0xFF], Stop::UnknownByte);
    claim_before(&[4], Stop::TooFewBytes);
    claim_before(&[6], Stop::BookFull);
}

/// So is a collection, which answers the new number.
#[test]
fn a_collection_is_done_once() {
    let mut lounge = Lounge::fresh();
    let roll = wulipday::words::encode(
        "open 1\nsell standard games 2 stake 100 groups 1 types 1\n\
         balls 1 2 3 4 5 6 7 8 9 10 11 12 13 14 15 16 17 18 19 20\n",
    );
    lounge.roll(&roll.expect("commands"), &mut [0; 22 * ANSWER_BYTES]);
    let mut answer = [BLANK; ANSWER_BYTES];
    let bytes = [9, 0, 0, 0, 1, 9];
    let report = lounge.command(&bytes, &mut answer);
    assert_eq!(report, Report { stop: Stop::TooFewBytes, read: 5, answers: 1 });
    assert_eq!(Record::read(&answer), Record { command: 9, code: 0, number: 2, cents: 300 });
    assert_eq!((lounge.till().paid, lounge.till().owed, lounge.till().held), (300, 0, 100));
    let before = lounge.clone();
    let report = lounge.command(&bytes, &mut answer);
    assert_eq!(report, Report { stop: Stop::TooFewBytes, read: 5, answers: 1 });
    assert_eq!(answer[..2], [9, 19]);
    assert!(lounge == before);
}

/// And a call-off, of the next game when it is given again.
#[test]
fn a_game_is_called_off_once() {
    let mut lounge = Lounge::fresh();
    let roll = "open 1\nsell standard games 1 stake 100 groups 1 types 1\nballs 1 2 3\n";
    let roll = wulipday::words::encode(roll).expect("commands");
    lounge.roll(&roll, &mut [0; 5 * ANSWER_BYTES]);
    let mut answer = [BLANK; ANSWER_BYTES];
    for (number, cents) in [(1, 100), (2, 0)] {
        let report = lounge.command(&[10, 10], &mut answer);
        assert_eq!(report, Report { stop: Stop::BookFull, read: 1, answers: 1 });
        assert_eq!(Record::read(&answer), Record { command: 10, code: 0, number, cents });
        assert_eq!((lounge.till().owed, lounge.till().held), (100, 0));
    }
    let mut closed = Lounge::fresh();
    let report = closed.command(&[10], &mut answer);
    assert_eq!(report, Report { stop: Stop::End, read: 1, answers: 1 });
    assert_eq!(Record::read(&answer), Record { command: 10, code: 4, number: 0, cents: 0 });
    assert!(closed == Lounge::fresh());
}

#[test]
fn without_a_whole_command_nothing_is_done() {
    // 93 bytes would be a sale with a feature.
    for (bytes, stop) in [
        (&[][..], Stop::End),
        (&[0xFF], Stop::UnknownByte),
        (&[11], Stop::UnknownByte),
        (&[5, 0, 0, 0], Stop::TooFewBytes),
        (&[9, 0, 0, 0], Stop::TooFewBytes),
        (&[8; 92], Stop::TooFewBytes),
    ] {
        let mut lounge = won();
        let mut answer = [BLANK; ANSWER_BYTES];
        let report = lounge.command(bytes, &mut answer);
        assert_eq!(report, Report { stop, read: 0, answers: 0 });
        assert_eq!(answer, [BLANK; ANSWER_BYTES]);
        assert!(lounge == won());
    }
}
