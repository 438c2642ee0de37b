//! How document 01 is read where it can be read in two ways, point by point as docs/DECISIONS.md numbers them.

mod common;
use common::{after, answers, kit, last, number, FIVE, THREE};
use model::believed::{self, trials};
use model::exchange::{self, exchanges, with_answers_exchanged};
use model::generator::protocol;
use model::idle::{check, edits, without_line};
use model::kit::{of_numbers, Action, Content, Kit, TICKS};
use model::play::{Condition, History, Room};
use model::print::{kitplay, play_of};
use model::random::Random;

/// f = 1 with the leader, the switch leader or the passive replica faulty.
const LEADER: &str = "f 1\nleader 0\npatience 10\nreplicas 3 1 0\n";
const SWITCH_LEADER: &str = "f 1\nleader 0\npatience 10\nreplicas 1 3 0\n";
const PASSIVE: &str = "f 1\nleader 0\npatience 10\nreplicas 1 1 2\n";

/// A request, noted and settled by the switch leader.
const ONE: &str = "0 1 7 / 0 3 0 0 1 1";

/// The end of a play in which nothing is settled and request 7, submitted at tick 0, got late.
const END: &str = "replica 0 running 0 0\nreplica 1 running 0 0\nreplica 2 running 0 0\nlate 10\n";

#[test]
fn r1_the_first_fault_from_the_left() {
    assert_eq!(number("01 03"), 3);
    assert_eq!(number("01 02"), 1);
    assert_eq!(number("00 80 00"), 3);
    assert_eq!(number("01 80 00 00"), 2);
    assert_eq!(number(""), 1);
}

#[test]
fn r2_the_table_is_judged_after_its_last_replica() {
    assert_eq!(number("01 02 01 01 01"), 1);
    assert_eq!(number("01 02 01 01 01 00"), 3);
    assert_eq!(number("01 00 01 04"), 3);
    assert_eq!(number("01 00 01 01 01 01"), 3);
    assert_eq!(number("01 00 01 01 01 01 80 00"), 3);
    assert_eq!(number("01 00 01 03 03 00"), 3);
    assert_eq!(number("01 00 01 03 01 00 00"), 0);
    assert_eq!(number("01 00 00"), 3);
}

#[test]
fn r3_kind_8() {
    let kit = |rest: &str| number(&format!("01 00 0A 01 01 00 01 00 08 {rest}"));
    assert_eq!(kit("02 01"), 4);
    assert_eq!(kit("FF FF FF FF 0F"), 1);
    assert_eq!(kit("00 41"), 1);
    assert_eq!(kit("00 41 00"), 4);
    assert_eq!(kit("01 01 FF FF FF FF 0F"), 4);
    assert_eq!(kit("00 FF FF FF FF 0F 02"), 4);
    assert_eq!(kit("00 00 00"), 0);
    assert_eq!(kit("00 01 01 05 05"), 0);
    assert_eq!(kit("00 01 01 05 00"), 4);
}

#[test]
fn r4_unused_b_and_free_operands() {
    let issue = |rest: &str| number(&format!("01 00 0A 03 01 00 01 00 02 {rest}"));
    for kind in ["01", "04", "05"] {
        assert_eq!(issue(&format!("00 00 {kind} 00 01")), 4);
        assert_eq!(issue(&format!("00 02 {kind} 09 00")), 0);
    }
    for kind in ["02", "03"] {
        assert_eq!(issue(&format!("00 00 {kind} 00 FF FF FF FF 0F")), 0);
    }
    assert_eq!(issue("00 03"), 4);
    assert_eq!(issue("03"), 4);
    assert_eq!(issue("00 00 00"), 4);
    assert_eq!(issue("00 00 06"), 4);
    assert_eq!(answers(LEADER, "0 2 0 2 1 0 0"), [0]);
}

#[test]
fn r5_cut_or_misspelled() {
    assert_eq!(number("80 80 80 80"), 1);
    assert_eq!(number("80 80 80 80 10"), 2);
    assert_eq!(number("80 80 80 80 80"), 2);
    assert_eq!(number("80 80 80 80 FF"), 2);
    assert_eq!(number("80 80 80 80 00"), 2);
    assert_eq!(number("80 80"), 1);
    assert_eq!(number("81 00"), 2);
    assert_eq!(number("81 80 00"), 2);
}

#[test]
fn r6_kit_9_goes_by_length() {
    assert_eq!(kitplay(&[0x80; 65_537]), "kit 9\n");
    assert_eq!(kitplay(&[0x80; 65_536]), "kit 2\n");
}

#[test]
fn r7_numbers_that_end_too_soon_or_go_on() {
    assert_eq!(of_numbers(&[1, 0, 10, 1, 1, 0, 1, 0]).err(), Some(1));
    assert_eq!(of_numbers(&[1, 0, 10, 1, 1, 0, 0, 0]).err(), Some(5));
    assert_eq!(of_numbers(&[1, 0, 10, 1, 1, 0, 1, 1 << 28]).err(), Some(4));
}

#[test]
fn r8_r9_the_order_of_the_rows() {
    // 16 before 15
    assert_eq!(answers(PASSIVE, "0 3 0 0 1 2 / 0 4 1 1 2"), [16, 16]);
    // 15 before 17
    assert_eq!(answers(THREE, "0 5 1 / 0 3 0 0 1 1 / 0 4 1 1 1"), [0, 15, 15]);
    // 17 before 20: ag to a halted passive one
    assert_eq!(answers(THREE, "0 1 7 / 0 5 2 / 0 3 0 0 1 2"), [0, 0, 17]);
    // 20 before 19 and 21
    assert_eq!(answers(THREE, "0 1 7 / 0 1 5 / 0 3 0 0 2 2 / 0 3 0 0 1 2 / 0 3 0 0 1 0"), [0, 0, 20, 20, 20]);
    // 19 before 21: a COMMIT ahead of what is noted
    assert_eq!(answers(SWITCH_LEADER, "0 2 1 0 2 9 9 / 0 2 1 0 2 9 9 / 0 3 1 0 2 0 / 0 3 1 0 1 0"), [0, 0, 19, 21]);
    // the switch leader that is handed a history: running, halted, holding
    let start = "0 1 7 / 0 3 0 0 1 1 / 0 4 1 1 1 / 0 5 1 / 0 4 1 1 1 / 0 7 / 0 4 2 2 1";
    assert_eq!(answers(THREE, start), [0, 0, 18, 0, 20, 0, 17]);
    // its own SWITCH to itself
    assert_eq!(last(THREE, &format!("{start} / 0 3 1 2 1 1")), 20);
    // 13 before 21, 21 before 14
    assert_eq!(answers(THREE, "0 2 0 0 4 0 0"), [13]);
    let full: String = (0..96).map(|_| "0 2 2 0 1 0 0 / ").collect();
    assert_eq!(last(PASSIVE, &format!("{full} 0 2 2 0 1 0 0")), 14);
    assert_eq!(last(PASSIVE, &format!("{full} 0 2 2 0 5 0 0")), 21);
    // 11 before 12
    let many: String = (1..=64).map(|r| format!("0 1 {r} / ")).collect();
    assert_eq!(last(THREE, &format!("{many} 0 1 64")), 11);
    assert_eq!(last(THREE, &format!("{many} 0 1 65")), 12);
}

#[test]
fn r10_kind_2_names_an_unfiled_history() {
    assert_eq!(answers(PASSIVE, "0 2 2 0 4 0 0 / 0 2 2 1 5 0 0 / 0 8 0 0 0 / 0 2 2 1 5 0 0 / 0 2 2 0 4 1 0"), [21, 21, 0, 0, 21]);
    // one that event 7 filed counts
    assert_eq!(answers(PASSIVE, "0 5 1 / 0 7 / 0 2 2 2 5 0 0"), [0, 0, 0]);
}

#[test]
fn r11_hand_of_no_history_or_of_two() {
    let events = "0 8 0 0 0 / 0 8 0 0 0 / 0 2 1 0 4 0 0 / 0 2 1 1 4 1 0 / 0 2 1 1 5 0 0 / 0 2 1 0 5 0 0 / 0 5 2";
    assert_eq!(last(SWITCH_LEADER, &format!("{events} / 0 4 1 1 2")), 22);
    assert_eq!(last(SWITCH_LEADER, &format!("{events} / 0 4 1 2 2")), 22);
    assert_eq!(last(SWITCH_LEADER, &format!("{events} / 0 4 2 1 2")), 22);
}

#[test]
fn r12_everybody_may_switch() {
    // f = 2: a faulty passive one and a correct passive one make 2 close
    let settings = "f 2\nleader 0\npatience 10\nreplicas 1 1 1 0 2\n";
    let events = "0 5 1 / 0 7 / 0 5 2 / 0 4 1 1 2 / 0 5 3 / 0 4 1 1 3 / 0 2 4 2 5 0 0 / 0 3 3 2 1 2 / 0 3 4 2 1 2";
    assert_eq!(answers(settings, events), [0; 9]);
    assert_eq!(after(settings, events, |room| room.replicas[2].condition), Condition::Closed);
}

#[test]
fn r13_r14_lateness_once() {
    let late = |events: &str| after(THREE, events, |room| room.late);
    assert_eq!(late("3 1 7 / 9 6"), None);
    assert_eq!(late("3 1 7 / 10 6"), Some(13));
    assert_eq!(late("3 1 7 / 1 1 5 / 50 6"), Some(13));
    assert_eq!(late("3 1 7 / 50 6 / 0 1 5 / 50 6"), Some(13));
    // a refused event notices it, and nobody need be running
    assert_eq!(late("3 1 7 / 50 1 7"), Some(13));
    assert_eq!(late("3 1 7 / 0 5 0 / 0 5 1 / 0 5 2 / 50 6"), Some(13));
    assert_eq!(late("3 1 7 / 0 5 0 / 0 5 1 / 0 5 2 / 9 6"), None);
    // a submission at the late event itself does not wait yet
    assert_eq!(answers(THREE, "3 1 7 / 50 1 5"), [0, 0]);
}

#[test]
fn r15_answered_is_about_what_was_issued() {
    let late = |settings: &str, events: &str| after(settings, events, |room| room.late);
    // every active replica's UPDATE is issued, none is delivered
    assert_eq!(late(THREE, &format!("{ONE} / 0 3 1 0 1 0 / 50 6")), None);
    assert_eq!(late(THREE, &format!("{ONE} / 50 6")), Some(10));
    // a faulty active replica's UPDATE counts, with the same mark only
    let events = "0 1 7 / 0 2 1 0 2 7 1 / 0 3 1 0 1 0";
    assert_eq!(late(SWITCH_LEADER, &format!("{events} / 0 2 1 1 3 7 7 / 50 6")), None);
    assert_eq!(late(SWITCH_LEADER, &format!("{events} / 0 2 1 1 3 7 8 / 50 6")), Some(10));
    // at another value it is another
    assert_eq!(late(SWITCH_LEADER, &format!("{events} / 0 2 1 1 3 9 9 / 0 2 1 1 3 7 7 / 50 6")), Some(10));
    // closing answers nothing
    let closing = "0 1 7 / 0 5 0 / 0 5 1 / 0 5 2 / 0 7 / 0 4 1 1 0 / 0 4 1 1 2 / 0 3 0 2 1 1 / 0 3 1 2 1 0 / 0 3 1 2 1 2";
    assert_eq!(answers(THREE, closing), [0; 10]);
    after(THREE, &format!("{closing} / 10 6"), |room| {
        assert!(room.replicas.iter().all(|p| p.condition == Condition::Closed));
        assert!((0..3).all(|x| room.settled(x) == [7]));
        assert_eq!(room.late, Some(10));
    });
}

/// Request L3: lateness halts nobody.
#[test]
fn l3_a_panic_has_to_travel() {
    let conditions = |events: &str| after(THREE, events, |room| room.replicas.iter().map(|p| p.condition).collect::<Vec<_>>());
    assert_eq!(conditions("0 1 7 / 10 6"), [Condition::Running; 3]);
    // a running leader prepares what is submitted after the late tick, and it is settled and answered
    let later = "0 1 7 / 10 1 5 / 0 3 0 0 1 1 / 0 3 0 0 2 1 / 0 3 1 0 1 0 / 0 3 1 0 2 0";
    assert_eq!(answers(THREE, later), [0; 6]);
    after(THREE, later, |room| {
        assert_eq!((room.late, room.settled(0)), (Some(10), [7, 5].as_slice()));
        assert!(room.is_answered(7) && room.is_answered(5));
    });
    // a running switch leader cannot build until its PANIC comes, and a running replica is handed nothing
    assert_eq!(answers(THREE, "0 1 7 / 10 7 / 0 5 1 / 0 7 / 0 4 1 1 2 / 0 5 2 / 0 4 1 1 2"), [0, 24, 0, 0, 18, 0, 0]);
    // the PANIC reaches 1 alone
    assert_eq!(conditions("0 1 7 / 10 6 / 3 5 1 / 9 6"), [Condition::Running, Condition::Halted, Condition::Running]);
}

/// Of a room all but the late tick is the same at every patience, and so is every answer; who halts has taken a PANIC.
#[test]
fn l3_the_patience_decides_the_late_tick_alone() {
    for seed in 0..200 {
        let mut random = Random::new(seed);
        let kit = protocol::kit(&mut random);
        let other = Kit { patience: random.pick(&[1, 2, 5, 20, 100, TICKS]), ..kit.clone() };
        let (mut room, mut beside) = (Room::new(&kit), Room::new(&other));
        for event in &kit.events {
            let was: Vec<_> = room.replicas.iter().map(|p| p.condition).collect();
            let answer = room.step(event);
            assert_eq!(answer, beside.step(event));
            assert_eq!((room.clock, &room.submitted, &room.histories), (beside.clock, &beside.submitted, &beside.histories));
            assert_eq!((room.filed, &room.counters, &room.replicas), (beside.filed, &beside.counters, &beside.replicas));
            for (x, p) in room.replicas.iter().enumerate() {
                let halts = p.condition == Condition::Halted && was[x] != Condition::Halted;
                assert_eq!(halts, answer == 0 && event.action == Action::Panic(x));
            }
        }
    }
}

/// Twelve ticks, however they are cut: the same clock and the same late tick; and what is printed.
#[test]
fn l9_idle_time_is_cut_and_joined() {
    for pauses in ["12 6", "6 6 / 6 6", "9 6 / 3 6", "10 6 / 2 6", "8 6 / 4 6", "0 6 / 12 6", "4 6 / 0 6 / 8 6"] {
        after(THREE, &format!("1 1 7 / 2 1 5 / {pauses}"), |room| assert_eq!((room.clock, room.late), (15, Some(11))));
    }
    // a tick before the patience is over, an idle of 0 makes nobody late
    after(THREE, "1 1 7 / 9 6 / 0 6", |room| assert_eq!((room.clock, room.late), (10, None)));
    // the line of the first of two idles is gone, and what comes behind is numbered one lower
    let text = |pauses: &str| play_of(&kit(THREE, &format!("0 1 7 / {pauses} / 0 1 7")));
    assert_eq!(text("6 6 / 6 6"), "1 0 0\n2 6 0\n3 12 0\n4 12 11\n".to_string() + END);
    assert_eq!(text("12 6"), "1 0 0\n2 12 0\n3 12 11\n".to_string() + END);
    assert_eq!(without_line(&text("6 6 / 6 6"), 4, 1), text("12 6"));
}

/// The four edits, on kits that know the protocol: every room, every answer and the printed play.
#[test]
fn l9_edited_kits_play_the_same() {
    for seed in 0..200 {
        let mut random = Random::new(seed);
        let kit = protocol::kit(&mut random);
        for pair in edits(&kit, &mut random) {
            assert_eq!(check(&pair, &mut |_| ()), Ok(()), "{} at place {} of kit {seed}", pair.edit, pair.at);
        }
    }
}

/// The answers of a kit and of the one with its last two events exchanged, and what the check of L11 says of the two.
fn both_orders(settings: &str, events: &str) -> ([Vec<u32>; 2], Result<(), String>) {
    let kit = kit(settings, events);
    let at = kit.events.len() - 2;
    let pair = exchange::Pair::new(kit, at, false);
    let answers = [&pair.kit, &pair.exchanged].map(|kit| {
        let mut room = Room::new(kit);
        kit.events.iter().map(|event| room.step(event)).collect()
    });
    (answers, exchange::check(&pair, &mut |_| ()))
}

/// Two deliveries and their answers change places, and nothing else that is printed.
#[test]
fn l11_the_answers_go_with_the_deliveries() {
    let (answers, verdict) = both_orders(THREE, "0 1 7 / 3 3 0 0 1 1 / 0 3 0 0 1 2");
    assert_eq!((answers, verdict), ([vec![0, 0, 20], vec![0, 20, 0]], Ok(())));
    let text = |two: &str| play_of(&kit(THREE, &format!("0 1 7 / {two} / 7 1 7")));
    let (one, other) = (text("3 3 0 0 1 1 / 0 3 0 0 1 2"), text("3 3 0 0 1 2 / 0 3 0 0 1 1"));
    assert!(one.starts_with("1 0 0\n2 3 0\n3 3 20\n4 10 11\nreplica 0"));
    assert!(other.starts_with("1 0 0\n2 3 20\n3 3 0\n4 10 11\nreplica 0"));
    assert_eq!(with_answers_exchanged(&one, 1), other);
    assert_eq!(with_answers_exchanged(&other, 1), one);
}

/// Lateness strikes at the first of the two, whichever it is; also where one of the two answers the request.
#[test]
fn l11_late_at_the_first_of_the_two() {
    for two in ["12 3 0 0 1 1 / 0 3 0 0 1 2", "12 3 0 0 1 2 / 0 3 0 0 1 1"] {
        let events = format!("0 1 7 / {two}");
        assert_eq!(both_orders(FIVE, &events), ([vec![0; 3], vec![0; 3]], Ok(())));
        after(FIVE, &events, |room| {
            assert_eq!((room.clock, room.late), (12, Some(10)));
            assert_eq!([1, 2].map(|x| room.issued(x, 0, 1)), [Some(Content::Commit(7, 1)); 2]);
        });
    }
    for two in ["10 3 1 0 1 0 / 0 3 1 1 1 2", "10 3 1 1 1 2 / 0 3 1 0 1 0"] {
        let events = format!("{ONE} / {two}");
        assert_eq!(both_orders(THREE, &events), ([vec![0; 4], vec![0; 4]], Ok(())));
        after(THREE, &events, |room| assert_eq!((room.late, room.is_answered(7)), (Some(10), true)));
    }
}

/// A certificate that the first of the two issues is not there when the second comes first.
#[test]
fn l11_issued_before_either() {
    let chain = "0 1 7 / 0 3 0 0 1 2 / 0 3 0 0 1 1 / 0 3 1 0 1 2";
    assert_eq!(both_orders(FIVE, chain), ([vec![0, 0, 0, 0], vec![0, 0, 15, 0]], Ok(())));
    // to a faulty receiver it is 16, issued or not
    assert_eq!(both_orders(PASSIVE, "0 1 7 / 0 3 0 0 1 1 / 0 3 1 1 1 2"), ([vec![0, 0, 16], vec![0, 16, 0]], Ok(())));
}

/// What L11 does not speak of: the same receiver, and a gap between the two.
#[test]
fn l11_where_the_order_shows() {
    let silent = Err("no two deliveries to exchange".to_string());
    let same = "0 1 7 / 0 1 5 / 0 3 0 0 1 1 / 0 3 0 0 2 1";
    assert_eq!(both_orders(THREE, same), ([vec![0; 4], vec![0, 0, 19, 0]], silent.clone()));
    // the leader's UPDATE answers request 7 at tick 9, or at tick 10, when it is late
    let apart = |two: &str| format!("{ONE} / {two}");
    let (soon, late) = (apart("9 3 1 0 1 0 / 1 3 1 1 1 2"), apart("9 3 1 1 1 2 / 1 3 1 0 1 0"));
    assert_eq!(both_orders(THREE, &soon), ([vec![0; 4], vec![0; 4]], silent));
    assert_eq!([soon, late].map(|events| after(THREE, &events, |room| room.late)), [None, Some(10)]);
}

/// Deliveries exchanged, on kits that know the protocol: every room, every answer and the printed play.
#[test]
fn l11_exchanged_kits_play_the_same() {
    let mut pairs = 0;
    for seed in 0..200 {
        let mut random = Random::new(seed);
        let kit = protocol::kit(&mut random);
        for pair in exchanges(&kit, &mut random) {
            assert_eq!(exchange::check(&pair, &mut |_| ()), Ok(()), "at place {} of kit {seed}", pair.at);
            pairs += 1;
        }
    }
    assert!(pairs > 400, "{pairs} pairs");
}

/// f = 2 with a faulty passive replica: 0 leads, 1 is the switch leader, 2 is active, 3 and 4 are passive.
const FAULTY_FOUR: &str = "f 2\nleader 0\npatience 10\nreplicas 1 1 1 0 2\n";

/// There: the switch leader has committed to 7 and 5, settled 7 and not noted 9 when it builds.
const COMMITTED: &str = "0 1 7 / 0 1 5 / 0 1 9 / 0 3 0 0 1 1 / 0 3 0 0 2 1 / 0 3 0 0 1 2 / 0 3 2 0 1 1 / 0 5 1 / 0 7";

/// The history is taken at its own two values and at no others, soon after event 7 and later.
#[test]
fn l12_at_its_own_two_values() {
    let hands = "0 5 2 / 0 4 3 1 2 / 0 4 3 2 2 / 0 1 8 / 0 5 3 / 0 4 3 2 3";
    let events = format!("{COMMITTED} / {hands}");
    assert_eq!(answers(FAULTY_FOUR, &events), [0, 0, 0, 0, 0, 0, 0, 0, 0, 0, 22, 0, 0, 0, 0]);
    after(FAULTY_FOUR, &events, |room| {
        assert_eq!(room.histories, [History { j: 1, k: 2, list: vec![7, 5, 9] }]);
        assert_eq!([room.issued(1, 0, 3), room.issued(1, 1, 2)], [Some(Content::History(0)); 2]);
        assert_eq!((room.counters[1][0].len(), room.counters[1][1].len()), (3, 2));
        assert_eq!([0, 1, 2, 3, 4].map(|x| room.replicas[x].held), [None, Some(0), Some(0), Some(0), None]);
        assert_eq!([2, 3].map(|x| room.issued(x, 2, 1)), [Some(Content::Switch(0)); 2]);
    });
    let hand = |values: &str, to: usize| last(FAULTY_FOUR, &format!("{COMMITTED} / 0 5 2 / 0 4 {values} {to}"));
    assert_eq!(["1 1", "1 2", "2 1", "2 2", "3 1", "3 2"].map(|values| hand(values, 2)), [22, 22, 22, 22, 22, 0]);
    assert_eq!(["4 2", "3 3", "0 2", "3 0", "4 1"].map(|values| hand(values, 2)), [15; 5]);
    // to one that runs, to the builder, to a faulty one
    assert_eq!([3, 1, 4].map(|to| hand("3 2", to)), [18, 17, 16]);
}

/// At that moment: the receivers are halted before event 7 comes, and the hand is the next event.
#[test]
fn l12_right_behind_event_7() {
    let halted = COMMITTED.replace("0 5 1 / 0 7", "0 5 0 / 0 5 1 / 0 5 2 / 0 5 3 / 0 7");
    assert_eq!([0, 2, 3].map(|to| last(FAULTY_FOUR, &format!("{halted} / 0 4 3 2 {to}"))), [0; 3]);
    // nothing submitted: j = k = 0, an empty list
    assert_eq!(answers(THREE, "0 5 2 / 0 5 1 / 0 7 / 0 4 1 1 2"), [0; 4]);
    // 64 listed, noted or not
    let many: String = (1..=64).map(|r| format!("0 1 {r} / ")).collect();
    assert_eq!(last(THREE, &format!("{many} 0 5 2 / 0 5 1 / 0 7 / 0 4 1 1 2")), 0);
    let noted: String = (1..=64).map(|r| format!("0 1 {r} / 0 3 0 0 {r} 1 / ")).collect();
    assert_eq!(last(THREE, &format!("{noted} 0 5 2 / 0 5 1 / 0 7 / 0 4 65 65 2")), 0);
}

/// The leader runs on behind event 7, prepares 8 and settles what the history only commits to; it halts later, and takes it.
#[test]
fn l12_one_that_halts_later() {
    let later = "0 3 0 0 2 2 / 0 3 1 0 1 0 / 0 3 1 0 2 0 / 0 3 2 0 1 0 / 0 3 2 0 2 0 / 0 1 8 / 30 4 3 2 0 / 0 5 0 / 0 4 3 2 0";
    let events = format!("{COMMITTED} / {later}");
    assert_eq!(answers(FAULTY_FOUR, &events)[9..], [0, 0, 0, 0, 0, 0, 18, 0, 0]);
    after(FAULTY_FOUR, &events, |room| {
        assert_eq!((room.settled(0), room.histories[0].j, room.late), ([7, 5].as_slice(), 1, Some(10)));
        assert_eq!(room.replicas[0].noted, [7, 5, 9, 8]);
        assert_eq!(room.replicas[0].held, Some(0));
    });
    // the builder has closed meanwhile
    let closed = "0 5 1 / 0 7 / 0 5 0 / 0 4 1 1 0 / 0 3 0 2 1 1 / 9 5 2 / 0 4 1 1 2";
    assert_eq!(answers(THREE, closed), [0; 7]);
    assert_eq!(after(THREE, closed, |room| room.replicas[1].condition), Condition::Closed);
}

/// Others are filed before and behind it, twins too: it has its number, and a correct replica holds this one.
#[test]
fn l12_among_other_histories() {
    let twin = "0 8 1 2 1 7 5 9";
    let issued = |h: usize| format!("0 2 4 0 4 {h} 0 / 0 2 4 1 4 {h} 0 / 0 2 4 2 5 {h} 0");
    let filed = COMMITTED.replace("0 5 1", &format!("0 8 0 0 0 / {twin} / {} / 0 5 1", issued(1)));
    let events = format!("{filed} / {twin} / {} / 0 5 2 / 0 4 3 2 2 / 0 3 4 2 1 2 / 0 5 3 / 0 4 3 2 3", issued(3));
    assert_eq!(answers(FAULTY_FOUR, &events)[14..], [0, 0, 0, 0, 0, 0, 21, 0, 0]);
    after(FAULTY_FOUR, &events, |room| {
        assert_eq!(room.histories.len(), 4);
        assert!([1, 3].into_iter().all(|h| room.histories[h] == room.histories[2]));
        assert_eq!([0, 1, 2, 3, 4].map(|x| room.replicas[x].held), [None, Some(2), Some(2), Some(2), None]);
    });
}

/// A correct switch leader has issued no HISTORY before its event 7, so nobody is handed any.
#[test]
fn l12_nobody_holds_before_event_7() {
    let filed = COMMITTED.replace(" / 0 7", " / 0 8 1 2 1 7 5 9 / 0 2 4 0 4 0 0 / 0 2 4 1 4 0 0 / 0 5 2");
    let hand = |values: &str| last(FAULTY_FOUR, &format!("{filed} / 0 4 {values} 2"));
    assert_eq!(["1 1", "2 1", "3 2", "2 2", "1 0"].map(hand), [22, 22, 15, 15, 15]);
    after(FAULTY_FOUR, &format!("{filed} / 0 4 2 1 2"), |room| assert!(room.replicas.iter().all(|p| p.held.is_none())));
}

/// Built histories handed at every later moment, on kits that know the protocol; and what is held.
#[test]
fn l12_built_histories_are_believed() {
    let mut built = 0;
    for seed in 0..200 {
        let mut random = Random::new(seed);
        let kit = protocol::kit(&mut random);
        for trial in trials(&kit, &mut random) {
            assert_eq!(believed::check(&trial, &mut random, &mut |_| ()), Ok(()), "kit {seed}, {}", trial.event_7());
            built += usize::from(trial.built_at.is_some());
        }
    }
    assert!(built > 80, "{built} built");
}

#[test]
fn r16_the_clock_is_long() {
    let far = format!("0 6 / {} 0 1 7 / 268435455 6", "268435455 6 / ".repeat(20));
    after(THREE, &far, |room| {
        assert_eq!(room.clock, 21 * 268435455);
        assert_eq!(room.late, Some(20 * 268435455 + 10));
    });
}

#[test]
fn r17_a_submission_without_a_running_leader() {
    assert_eq!(answers(LEADER, "0 1 7 / 0 1 7"), [0, 11]);
    after(THREE, "0 5 0 / 0 1 7", |room| {
        assert_eq!(room.submitted, [(7, 0)]);
        assert!(room.counters[0][0].is_empty() && room.replicas[0].noted.is_empty());
    });
}

#[test]
fn r18_judged_at_the_delivery() {
    assert_eq!(answers(LEADER, "0 2 0 0 1 5 0 / 0 3 0 0 1 1 / 0 1 5 / 0 3 0 0 1 1"), [0, 21, 0, 0]);
    assert_eq!(answers(LEADER, "0 1 5 / 0 2 0 0 1 5 0 / 0 2 0 0 1 5 0 / 0 3 0 0 1 1 / 0 3 0 0 2 1"), [0, 0, 0, 0, 21]);
}

#[test]
fn r19_the_last_places_of_a_correct_replica() {
    let mut events: String = (1..=64).map(|r| format!("0 1 {r} / 0 3 0 0 {r} 1 / ")).collect();
    events.push_str("0 5 1 / 0 7");
    after(THREE, &events, |room| {
        assert_eq!([0, 1, 2].map(|name| room.counters[1][name].len()), [65, 65, 1]);
        assert_eq!(room.issued(1, 0, 65), Some(Content::History(0)));
        assert_eq!((room.histories[0].j, room.histories[0].k, room.settled(1).len()), (64, 64, 64));
    });
}

#[test]
fn r20_a_history_by_kind_3() {
    let events = "0 5 1 / 0 7 / 0 3 1 0 1 0 / 0 3 1 1 1 2 / 0 5 0 / 0 3 1 0 1 0";
    assert_eq!(answers(THREE, events), [0, 0, 21, 21, 0, 17]);
}

#[test]
fn r21_a_faulty_record_is_never_touched() {
    let events = "0 1 7 / 0 2 0 0 1 7 0 / 0 3 0 0 1 1 / 0 3 1 0 1 0 / 50 5 0";
    after(LEADER, events, |room| {
        let p = &room.replicas[0];
        assert_eq!((p.condition, p.noted.len(), p.mark, p.held), (Condition::Faulty, 0, 0, None));
        assert!(p.accepted.iter().all(|a| *a == [0; 3]));
    });
}

#[test]
fn r22_r23_a_pair_keeps_the_mark_it_came_with() {
    // the faulty switch leader's UPDATE comes first, with a wrong mark
    let events = "0 1 7 / 0 2 1 0 2 7 1 / 0 3 1 0 1 0 / 0 2 1 1 3 7 9 / 0 3 1 1 1 2 / 0 3 0 1 1 2";
    assert_eq!(answers(SWITCH_LEADER, events), [0, 0, 0, 0, 0, 21]);
    after(SWITCH_LEADER, events, |room| {
        assert_eq!((room.replicas[2].noted.as_slice(), room.replicas[2].marks.as_slice()), ([7].as_slice(), [9].as_slice()));
        assert_eq!((room.settled(2).len(), room.replicas[2].mark), (0, 0));
    });
}

#[test]
fn r24_panic() {
    assert_eq!(answers(THREE, &format!("{ONE} / 0 5 1 / 0 5 1 / 0 3 1 0 1 0")), [0, 0, 0, 17, 0]);
    after(THREE, &format!("{ONE} / 0 5 1"), |room| {
        assert_eq!((room.replicas[1].condition, room.settled(1), room.late), (Condition::Halted, [7].as_slice(), None));
    });
}

#[test]
fn r25_build() {
    // the tail: also what was submitted after the halt
    after(THREE, &format!("{ONE} / 0 1 5 / 0 5 1 / 0 1 9 / 0 7"), |room| {
        assert_eq!((room.histories[0].j, room.histories[0].k), (1, 1));
        assert_eq!(room.histories[0].list, [7, 5, 9]);
    });
    assert_eq!(answers(THREE, "0 7 / 0 5 1 / 0 7 / 0 7"), [24, 0, 0, 24]);
    assert_eq!(answers(SWITCH_LEADER, "0 7"), [24]);
    let closed = "0 5 1 / 0 7 / 0 5 0 / 0 4 1 1 0 / 0 3 0 2 1 1 / 0 7";
    assert_eq!(answers(THREE, closed), [0, 0, 0, 0, 0, 24]);
}

#[test]
fn r26_the_hand_looks_at_counters() {
    // 0 never accepted anything of 1, and nothing of it is asked for or moved
    let events = format!("{ONE} / 0 5 1 / 0 7 / 0 5 0 / 0 4 2 2 0");
    assert_eq!(last(THREE, &events), 0);
    after(THREE, &events, |room| assert_eq!(room.replicas[0].accepted, [[0; 3]; 3]));
    // the history is filed before its request is submitted, and handed after
    let early = "0 8 0 0 1 7 / 0 2 1 0 4 0 0 / 0 2 1 1 4 0 0 / 0 5 2 / 0 4 1 1 2 / 0 1 7 / 0 4 1 1 2";
    assert_eq!(answers(SWITCH_LEADER, early), [0, 0, 0, 0, 22, 0, 0]);
    // p and q are compared with k and j, not with totals
    let more = "0 8 0 0 0 / 0 2 1 0 4 0 0 / 0 2 1 1 4 0 0 / 0 2 1 0 2 9 9 / 0 2 1 1 2 9 9 / 0 5 2 / 0 4 1 1 2";
    assert_eq!(last(SWITCH_LEADER, more), 0);
}

#[test]
fn r27_every_other_active_replica() {
    // f = 2, faulty switch leader: with j = 1 the COMMIT of 2 is needed, the receiver's own; without it 22
    let settings = "f 2\nleader 0\npatience 10\nreplicas 1 3 1 0 0\n";
    let history = "0 2 1 0 2 7 1 / 0 2 1 1 3 7 7 / 0 8 1 1 0 7 / 0 2 1 0 4 0 0 / 0 2 1 1 4 0 0";
    assert_eq!(last(settings, &format!("0 1 7 / {history} / 0 5 2 / 0 4 2 2 2")), 22);
    assert_eq!(last(settings, &format!("0 1 7 / 0 3 0 0 1 2 / {history} / 0 5 2 / 0 4 2 2 2")), 0);
    assert_eq!(last(settings, &format!("0 1 7 / 0 3 0 0 1 2 / {history} / 0 5 3 / 0 4 2 2 3")), 0);
    // with f = 1 nobody else is asked
    assert_eq!(last(SWITCH_LEADER, &format!("0 1 7 / {history} / 0 5 2 / 0 4 2 2 2")), 0);
}

#[test]
fn r28_a_twin_is_another_history() {
    let events = "0 8 0 0 0 / 0 8 0 0 0 / 0 2 1 0 4 0 0 / 0 2 1 1 4 0 0 / 0 5 2 / 0 4 1 1 2 / 0 2 1 2 5 1 0 / 0 3 1 2 1 2";
    assert_eq!(last(SWITCH_LEADER, events), 21);
    let own = "0 8 0 0 0 / 0 8 0 0 0 / 0 2 1 0 4 0 0 / 0 2 1 1 4 0 0 / 0 5 2 / 0 4 1 1 2 / 0 2 1 2 5 0 0 / 0 3 1 2 1 2";
    assert_eq!(last(SWITCH_LEADER, own), 0);
}

#[test]
fn r29_f_different_senders() {
    let events = "0 5 1 / 0 7 / 0 5 2 / 0 4 1 1 2 / 0 3 1 2 1 2";
    assert_eq!(after(FIVE, events, |room| room.replicas[2].condition), Condition::Halted);
    assert_eq!(after(THREE, events, |room| room.replicas[2].condition), Condition::Closed);
}

#[test]
fn r30_closing() {
    // the leader has noted 7 and 5 and settled 7; it closes on all three, in the history's order
    let events = "0 1 7 / 0 3 0 0 1 1 / 0 3 1 0 1 0 / 0 1 5 / 0 5 1 / 0 1 9 / 0 7 / 0 5 0 / 0 4 2 2 0 / 0 3 1 2 1 0";
    assert_eq!(answers(THREE, events), [0; 10]);
    after(THREE, events, |room| {
        let p = &room.replicas[0];
        assert_eq!((p.condition, room.settled(0)), (Condition::Closed, [7, 5, 9].as_slice()));
        assert_eq!(p.mark, ((7 * 2) + 5) * 2 + 9);
        assert_eq!(p.noted, [7, 5, 9]);
        assert_eq!(p.accepted, [[0, 0, 0], [1, 0, 1], [0, 0, 0]]);
        assert_eq!(room.counters[0][1].len(), 1);
    });
}

#[test]
fn r31_seven_and_one() {
    let seven = "0 8 0 0 0 / ".repeat(7);
    assert_eq!(last(THREE, &format!("{seven} 0 8 0 0 0")), 23);
    let all = format!("0 8 0 0 0 / 0 5 1 / 0 7 / {} 0 8 0 0 0", "0 8 0 0 0 / ".repeat(6));
    assert_eq!(answers(THREE, &all), [0, 0, 0, 0, 0, 0, 0, 0, 0, 23]);
    after(THREE, &all, |room| {
        assert_eq!(room.histories.len(), 8);
        assert_eq!(room.replicas[1].held, Some(1));
    });
}
