//! The owning layer: rooms that grow, ends and names, and ways that are held against the library's path.

use lawhemuri::unfolding::{hold_structure, Event, Kind, Step};
use lawhemuri::{Refusal, Rehearsal, Run, Trouble, Unread, MOST_EVENTS};

/// Sheets of the repository that are accepted.
const SHEETS: [&str; 5] = ["example", "left_recursion", "light_up", "low_water", "fuel_change"];

fn sheet(name: &str) -> Vec<u8> {
    std::fs::read(format!("{}/../../sheets/{name}.sheet", env!("CARGO_MANIFEST_DIR"))).unwrap()
}

/// Switches that may each be put on, in any order: 2 to the power of their number ends.
fn switches(count: usize) -> Vec<u8> {
    let fluents: String = (0..count).map(|k| format!("fluent\ts{k}\n")).collect();
    let rules: String = (0..count).map(|k| format!("rule\tput\t!put\t+s{k}\n")).collect();
    format!("{fluents}action\tput\nrule\tput\n{rules}start\ngoal\t!put\n").into_bytes()
}

/// Actions of 16 calls each of the one before, the first of which is `bottom`: 16 to the power of `levels` bottoms.
fn nested(bottom: &str, levels: usize) -> Vec<u8> {
    let actions: String = (0..=levels).map(|k| format!("action\tg{k}\n")).collect();
    let rules: String = (1..=levels).map(|k| format!("rule\tg{k}{}\n", format!("\t!g{}", k - 1).repeat(16))).collect();
    format!("fluent\ta\n{actions}rule\tg0{bottom}\n{rules}start\ngoal\t!g{levels}\n").into_bytes()
}

#[test]
fn example_sheets_have_ways_to_all_ends() {
    for name in SHEETS {
        let rehearsal = Rehearsal::new(sheet(name)).unwrap();
        for &end in rehearsal.ends() {
            let way = rehearsal.way_to(end).unwrap().unwrap();
            assert!(way.whole);
            assert_eq!((way.states[0], way.states.last()), (rehearsal.sheet().start, Some(&end)), "{name}");
            let updates = way.events.iter().filter(|e| matches!(e, Event::Step { word, .. } if Step::of(*word).is_update()));
            assert_eq!(way.states.len(), 1 + updates.count(), "{name}: a state for each update");
        }
        assert!(rehearsal.way_to(u64::MAX).unwrap().is_none());
    }
}

#[test]
fn names_and_counts() {
    let rehearsal = Rehearsal::new(sheet("example")).unwrap();
    assert_eq!(rehearsal.names(), ["open", "lit"]);
    assert_eq!((rehearsal.counts(), rehearsal.ends()), (Run { ends: 1, calls: 3, answers: 3, rounds: 5 }, &[2][..]));
    assert_eq!(rehearsal.path(rehearsal.record(2).unwrap(), 4).unwrap(), Some(vec![0, 1, 3, 2]));
    assert_eq!(rehearsal.path(rehearsal.record(2).unwrap(), 3).unwrap(), None);
}

#[test]
fn an_update_without_effect_has_a_state() {
    let rehearsal = Rehearsal::new(b"fluent\ta\nstart\ta\ngoal\t+a\n".to_vec()).unwrap();
    assert_eq!(rehearsal.way_to(1).unwrap().unwrap().states, [1, 1]);
}

#[test]
fn a_denial_goes_on_where_the_fluent_does_not_hold() {
    let rehearsal = Rehearsal::new(b"fluent\ta\nstart\ngoal\t~a\t+a\n".to_vec()).unwrap();
    let way = rehearsal.way_to(1).unwrap().unwrap();
    assert_eq!(way.states, [0, 1]);
    assert!(matches!(way.events[1], Event::Step { word: 1024, at: 0, .. }));
    assert_eq!(Step::of(1024).kind, Kind::Deny);
}

#[test]
fn rooms_grow_until_no_room_helps() {
    let rehearsal = Rehearsal::new(switches(14)).unwrap();
    assert_eq!(rehearsal.counts(), Run { ends: 16_384, calls: 2, answers: 32_768, rounds: 17 });
    assert!(rehearsal.way_to(rehearsal.ends()[16_383]).unwrap().unwrap().whole);
    assert!(matches!(Rehearsal::new(switches(16)), Err(Trouble::TooLarge)));
}

#[test]
fn refused_sheets() {
    let refused = Rehearsal::new(b"start\ngoal\t+a\n".to_vec());
    assert!(matches!(refused, Err(Trouble::Sheet(Unread { refusal: Refusal::Undefined, line: 2 }))));
}

#[test]
fn of_a_way_that_is_too_long_a_part_is_given() {
    for (bottom, updates) in [("\t+a\t-a", true), ("\t~a", false)] {
        let rehearsal = Rehearsal::new(nested(bottom, 12)).unwrap();
        let record = rehearsal.record(0).unwrap();
        assert!(rehearsal.size(record) > MOST_EVENTS);
        let way = rehearsal.way_to(0).unwrap().unwrap();
        assert!(!way.whole && rehearsal.size(way.record) <= MOST_EVENTS && 16 * rehearsal.size(way.record) > MOST_EVENTS);
        assert_eq!(way.events.len() as u64, rehearsal.size(way.record));
        assert_eq!(way.states.len() > 1, updates);
    }
}

/// Numbers that look random and are always the same.
struct Numbers(u64);

impl Numbers {
    fn below(&mut self, bound: u64) -> u64 {
        self.0 = self.0.wrapping_mul(6_364_136_223_846_793_005).wrapping_add(1_442_695_040_888_963_407);
        (self.0 >> 33) % bound
    }
}

/// A sheet of 4 fluents, 4 actions and 8 rules.
fn random_sheet(numbers: &mut Numbers) -> Vec<u8> {
    let mut step = || match numbers.below(8) {
        0 => format!("\t?f{}", numbers.below(4)),
        1 => format!("\t~f{}", numbers.below(4)),
        2 | 3 => format!("\t+f{}", numbers.below(4)),
        4 | 5 => format!("\t-f{}", numbers.below(4)),
        _ => format!("\t!g{}", numbers.below(4)),
    };
    let mut body = |length: usize| (0..length).map(|_| step()).collect::<String>();
    let rules: String = (0..8).map(|k| format!("rule\tg{}{}\n", k % 4, body(1 + k % 4))).collect();
    let goal = body(3);
    let names = |word: &str, mark: char| (0..4).map(|k| format!("{word}\t{mark}{k}\n")).collect::<String>();
    format!("{}{}{rules}start\tf0\tf2\ngoal{goal}\n", names("fluent", 'f'), names("action", 'g')).into_bytes()
}

#[test]
fn random_sheets_have_ways_to_all_ends() {
    let (mut numbers, mut ways, mut idle) = (Numbers(17), 0, 0);
    for _ in 0..400 {
        let rehearsal = Rehearsal::new(random_sheet(&mut numbers)).unwrap();
        for &end in rehearsal.ends() {
            let way = rehearsal.way_to(end).unwrap().unwrap();
            idle += way.states.windows(2).filter(|pair| pair[0] == pair[1]).count();
            ways += 1;
        }
    }
    assert!(ways > 200 && idle > 200, "{ways} ways with {idle} updates without effect");
}

/// Each call of a run is found where a walk of the table finds it, and no other is.
#[test]
fn every_call_is_found() {
    let (mut numbers, mut calls) = (Numbers(29), 0);
    for _ in 0..100 {
        let rehearsal = Rehearsal::new(random_sheet(&mut numbers)).unwrap();
        let tables = rehearsal.tables();
        let walked: Vec<(u64, u64)> = (0..rehearsal.counts().calls).map(|record| tables.call(record)).collect();
        for action in (0..=rehearsal.sheet().actions).chain([64, 65, u64::MAX]) {
            for state in (0..1 << rehearsal.sheet().fluents).chain([u64::MAX]) {
                let record = walked.iter().position(|&call| call == (action, state));
                assert_eq!(rehearsal.find(action, state), record);
                calls += record.is_some() as usize;
            }
        }
    }
    assert!(calls > 200, "{calls} calls");
}

/// Each event of each way in turn is left out, and put one level deeper: both are told, whatever they do to the states.
#[test]
fn events_lost_or_in_another_depth_are_told() {
    let (mut numbers, mut planted) = (Numbers(23), 0);
    for _ in 0..100 {
        let rehearsal = Rehearsal::new(random_sheet(&mut numbers)).unwrap();
        for &end in rehearsal.ends() {
            let way = rehearsal.way_to(end).unwrap().unwrap();
            let held = |events: &[Event]| hold_structure(&rehearsal.tables(), way.record, events);
            assert_eq!(held(&way.events), Ok(()));
            for event in 0..way.events.len() {
                let mut lost = way.events.clone();
                lost.remove(event);
                assert!(held(&lost).is_err(), "event {event} lost");
                let mut deeper = way.events.clone();
                let (Event::Call { depth, .. } | Event::Step { depth, .. } | Event::Back { depth, .. }) = &mut deeper[event];
                *depth += 1;
                assert!(held(&deeper).is_err(), "event {event} deeper");
                planted += 2;
            }
        }
    }
    assert!(planted > 1000, "{planted} faults");
}
