//! What document 01 says of itself: its printed example, P1 to P12, the lines with f = 2, and what it calls easy to get wrong.

mod common;
use common::{after, answers, hex, kit, last, number, FIVE, THREE};
use model::kit::{read, write, Content};
use model::play::{mark_of, Condition, Room};
use model::print::{kitplay, kitroom, play_of, play_text, room_of};

const EXAMPLE: &str =
    "01 00 0A 01 01 00 05 / 00 01 07 / 03 03 00 00 01 01 / 02 03 01 00 01 00 / 14 03 00 01 01 02 / 00 03 01 01 01 02";

/// The example's events in the readable form.
const EVENTS: &str = "0 1 7 / 3 3 0 0 1 1 / 2 3 1 0 1 0 / 20 3 0 1 1 2 / 0 3 1 1 1 2";

/// Its first two, without gaps.
const TWO: &str = "0 1 7 / 0 3 0 0 1 1";

#[test]
fn printed_example() {
    let play = "1 0 0\n2 3 0\n3 5 0\n4 25 0\n5 25 0\n\
        replica 0 running 1 7 7\nreplica 1 running 1 7 7\nreplica 2 running 1 7 7\nlate none\n";
    assert_eq!(kitplay(&hex(EXAMPLE)), play);
    assert_eq!(play_of(&kit(THREE, EVENTS)), play);
}

#[test]
fn numbers_of_the_paper() {
    let with_patience = |n: &str| number(&format!("01 00 {n} 01 01 00 00"));
    assert_eq!(with_patience("7F"), 0);
    assert_eq!(read(&hex("01 00 80 01 01 01 00 00")).unwrap().patience, 128);
    assert_eq!(number("01 00 0A 01 01 00 01 00 01 FF FF FF FF 0F"), 0);
    // P1
    assert_eq!(with_patience("80 00"), 2);
    // P2
    assert_eq!(with_patience("FF FF FF FF 10"), 2);
    // P3
    assert_eq!(with_patience("FF FF FF 7F"), 0);
    assert_eq!(read(&hex("01 00 FF FF FF 7F 01 01 00 00")).unwrap().patience, (1 << 28) - 1);
    // P4
    assert_eq!(with_patience("80 80 80 80 01"), 3);
    assert_eq!(number("01 00 0A 01 01 00 01 80 80 80 80 01 06"), 4);
}

#[test]
fn marks_of_the_paper() {
    // P5
    assert_eq!(mark_of(&[7, 5]), 19);
    // P6
    assert_eq!(mark_of(&[2147483648, 1]), 1);
}

#[test]
fn gaps_of_the_paper() {
    let third = |gap: u32| format!("0 1 7 / 3 3 0 0 1 1 / {gap} 3 1 0 1 0 / 20 3 0 1 1 2 / 0 3 1 1 1 2");
    let line = |gap: u32| play_of(&kit(THREE, &third(gap))).lines().nth(2).unwrap().to_string();
    // P7
    assert_eq!(line(6), "3 9 0");
    assert_eq!(after(THREE, &third(6), |room| room.late), None);
    // P8, as request L3 has it
    assert_eq!(line(7), "3 10 0");
    assert_eq!(after(THREE, &third(7), |room| room.late), Some(10));
    // P9
    assert_eq!(answers(THREE, "0 1 7 / 3 3 0 0 1 1 / 0 3 0 0 1 1"), [0, 0, 19]);
}

#[test]
fn switch_of_the_paper() {
    // P10
    let built = format!("{TWO} / 0 5 1 / 0 7");
    assert_eq!(answers(THREE, &built), [0; 4]);
    after(THREE, &built, |room| {
        assert_eq!((room.histories[0].j, room.histories[0].k), (1, 1));
        assert_eq!((room.counters[1][0].len(), room.counters[1][1].len()), (2, 2));
        assert_eq!((room.issued(1, 0, 2), room.issued(1, 1, 2)), (Some(Content::History(0)), Some(Content::History(0))));
    });
    // P11
    let handed = format!("{built} / 0 5 2 / 0 4 2 2 2");
    assert_eq!(answers(THREE, &handed), [0; 6]);
    // P12
    let closed = format!("{handed} / 0 3 1 2 1 2");
    assert_eq!(answers(THREE, &closed), [0; 7]);
    after(THREE, &closed, |room| {
        assert_eq!(room.replicas[2].condition, Condition::Closed);
        assert_eq!((room.settled(2), room.replicas[2].mark), ([7].as_slice(), 7));
    });
}

#[test]
fn five_replicas_of_the_paper() {
    // the switch leader has committed but settled nothing
    let built = format!("{TWO} / 0 5 1 / 0 7");
    after(FIVE, &built, |room| {
        assert_eq!((room.histories[0].k, room.histories[0].j), (1, 0));
        assert_eq!((room.counters[1][0].len(), room.counters[1][1].len()), (2, 1));
    });
    // the same with a filed k = 0, handed at ag 2: 22; believed only with its COMMIT
    let faulty = "f 2\nleader 0\npatience 10\nreplicas 1 3 1 0 0\n";
    let start = "0 1 7 / 0 2 1 0 2 7 1";
    let end = "0 2 1 0 4 0 0 / 0 2 1 1 4 0 0 / 0 5 2 / 0 4 2 1 2";
    assert_eq!(last(faulty, &format!("{start} / 0 8 0 0 1 7 / {end}")), 22);
    assert_eq!(last(faulty, &format!("{start} / 0 8 0 1 0 7 / {end}")), 0);
}

#[test]
fn the_gap_of_a_refused_event_counts() {
    let clock = |events: &str| after(THREE, events, |room| room.clock);
    assert_eq!(clock("4 1 7 / 3 1 7 / 2 7 / 1 6"), 10);
    assert_eq!(after(THREE, "0 1 7 / 10 1 7", |room| room.late), Some(10));
}

#[test]
fn lateness_comes_before_the_event_and_at_the_very_tick() {
    // the COMMIT that answers comes in the event before tick 10; in the event at tick 10 it is too late
    assert_eq!(after(THREE, "0 1 7 / 0 3 0 0 1 1 / 9 3 1 0 1 0 / 1 6", |room| room.late), None);
    assert_eq!(after(THREE, "0 1 7 / 0 3 0 0 1 1 / 10 3 1 0 1 0", |room| room.late), Some(10));
}

#[test]
fn two_switches_of_one_sender_are_one() {
    // f = 2: 4 is faulty and sends its SWITCH twice; 2 closes only with another's
    let settings = "f 2\nleader 0\npatience 10\nreplicas 1 1 1 0 2\n";
    let events = "0 5 1 / 0 7 / 0 5 2 / 0 4 1 1 2 / 0 2 4 2 5 0 0 / 0 2 4 2 5 0 0 / 0 3 4 2 1 2 / 0 3 4 2 2 2";
    assert_eq!(answers(settings, events), [0; 8]);
    assert_eq!(after(settings, events, |room| room.replicas[2].condition), Condition::Halted);
    let more = format!("{events} / 0 3 1 2 1 2");
    assert_eq!(after(settings, &more, |room| room.replicas[2].condition), Condition::Closed);
}

#[test]
fn a_refusal_leaves_the_expected_value() {
    // PREPARE of 5 before 5 is submitted: 21, and taken when it comes again
    let settings = "f 1\nleader 0\npatience 10\nreplicas 3 1 0\n";
    assert_eq!(answers(settings, "0 2 0 0 1 5 0 / 0 3 0 0 1 1 / 0 1 5 / 0 3 0 0 1 1"), [0, 21, 0, 0]);
}

#[test]
fn the_writer() {
    let numbers = model::kit::numbers(&kit(THREE, EVENTS));
    let bytes = hex(EXAMPLE);
    let mut out = [0xEE; 40];
    assert_eq!(write(&numbers, &mut out), Ok(34));
    assert_eq!(out[..34], bytes);
    assert_eq!(out[34..], [0xEE; 6]);
    let mut short = [0xEE; 33];
    assert_eq!(write(&numbers, &mut short), Err(6));
    assert_eq!(short, [0xEE; 33]);
    // 3 and 4 before 6; ends too soon, goes on
    assert_eq!(write(&[9], &mut []), Err(3));
    assert_eq!(write(&[1, 0, 10, 1, 1, 0, 4097], &mut []), Err(4));
    assert_eq!(write(&[1, 0, 10, 1, 1, 0], &mut []), Err(1));
    assert_eq!(write(&[1, 0, 10, 1, 1, 0, 0, 0], &mut []), Err(5));
}

#[test]
fn a_refused_event_changes_only_clock_and_late_tick() {
    for seed in 0..200 {
        let kit = model::generator::protocol::kit(&mut model::random::Random::new(seed));
        let mut room = Room::new(&kit);
        for event in &kit.events {
            let before = room.clone();
            let mut ticked = room.clone();
            ticked.tick(event.gap);
            if room.step(event) != 0 {
                assert_eq!((room.clock, room.late), (before.clock + u64::from(event.gap), ticked.late));
                assert_eq!((&room.submitted, &room.histories, room.filed), (&before.submitted, &before.histories, before.filed));
                assert_eq!((&room.counters, &room.replicas), (&before.counters, &before.replicas));
            }
        }
    }
}

#[test]
fn a_refused_kit_prints_its_number() {
    assert_eq!(play_text(&[]), "kit 1\n");
    assert_eq!(play_text(&[4]), "kit 3\n");
    assert_eq!(kitplay(&[4; 65_536]), "kit 3\n");
    assert_eq!(kitplay(&[4; 65_537]), "kit 9\n");
}

#[test]
fn the_printed_room() {
    let start = "event 0 clock 0 answer - late none\nsubmitted\n\
        replica 0 running settled=0 mark=0 held=- noted=- pairmarks=- accepted=- list=-\n\
        replica 1 running settled=0 mark=0 held=- noted=- pairmarks=- accepted=- list=-\n\
        replica 2 running settled=0 mark=0 held=- noted=- pairmarks=- accepted=- list=-\n";
    let end = "event 5 clock 25 answer 0 late none\nsubmitted 7@0\n\
        counter 0.0 1:7:0\ncounter 0.1 3:7:7\ncounter 1.0 2:7:1\ncounter 1.1 3:7:7\n\
        replica 0 running settled=1 mark=7 held=- noted=7 pairmarks=- accepted=1.0:1 list=7\n\
        replica 1 running settled=1 mark=7 held=- noted=7 pairmarks=- accepted=0.0:1 list=7\n\
        replica 2 running settled=1 mark=7 held=- noted=7 pairmarks=7 accepted=0.1:1,1.1:1 list=7\n";
    assert_eq!(kitroom(&hex(EXAMPLE), Some(0)), start);
    assert_eq!(kitroom(&hex(EXAMPLE), Some(5)), end);
    assert_eq!(kitroom(&hex(EXAMPLE), None), end);
    assert_eq!(kitroom(&hex(EXAMPLE), Some(6)).lines().count(), 1);
    assert_eq!(kitroom(&[], Some(0)), "kit 1\n");
    assert_eq!(kitroom(&[0; 65_537], None), "kit 9\n");
    let closed =
        kit("f 1\nleader 0\npatience 10\nreplicas 3 1 0\n", "2 1 7 / 0 8 0 0 0 / 0 5 1 / 1 7 / 0 5 2 / 0 4 1 1 2 / 9 3 1 2 1 2");
    assert_eq!(
        room_of(&closed, 7),
        "event 7 clock 12 answer 0 late 12\nsubmitted 7@2\nhistory 0 0 0 -\nhistory 1 0 0 7\n\
        counter 1.0 4:1:0\ncounter 1.1 4:1:0\ncounter 1.2 5:1:0\ncounter 2.2 5:1:0\n\
        replica 0 faulty settled=0 mark=0 held=- noted=- pairmarks=- accepted=- list=-\n\
        replica 1 halted settled=0 mark=0 held=1 noted=- pairmarks=- accepted=- list=-\n\
        replica 2 closed settled=1 mark=7 held=1 noted=- pairmarks=- accepted=1.2:1 list=7\n"
    );
}
