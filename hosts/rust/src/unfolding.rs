//! The execution that an answer's evidence unfolds to, step by step, and its comparison with the states that the library lists.
//!
//! The library judges: what is unfolded here is shown only if, replayed, it gives exactly the states of [`crate::path`], and if
//! each event stands where the library's tables have it.

use std::fmt;

use crate::{ANSWER_WORDS, CALL_WORDS, GOAL_RULE, RULE_WORDS};

/// What a step does.
#[derive(Clone, Copy, Debug, PartialEq, Eq)]
pub enum Kind {
    /// `?`: goes on if the fluent holds.
    Query,
    /// `+`: the fluent holds from now on.
    Insert,
    /// `-`: the fluent holds no longer.
    Delete,
    /// `!`: an action is done by any one of its rules.
    Call,
    /// `~`: goes on if the fluent does not hold.
    Deny,
}

/// Indices of one kind in the step words.
const KIND_SIZE: u16 = 256;

/// A step word taken apart.
#[derive(Clone, Copy, Debug, PartialEq, Eq)]
pub struct Step {
    pub kind: Kind,
    /// The number of the fluent, or of the action for a call.
    pub index: usize,
}

impl Step {
    /// The step of a word that the library accepts.
    ///
    /// Panics on a word of no kind, which no accepted sheet has.
    pub fn of(word: u16) -> Step {
        let kind = match word / KIND_SIZE {
            0 => Kind::Query,
            1 => Kind::Insert,
            2 => Kind::Delete,
            3 => Kind::Call,
            4 => Kind::Deny,
            kind => panic!("step word {word} has kind {kind}, which no accepted sheet has"),
        };
        Step { kind, index: usize::from(word % KIND_SIZE) }
    }

    /// Whether it is an insert or a delete.
    pub fn is_update(self) -> bool {
        matches!(self.kind, Kind::Insert | Kind::Delete)
    }

    /// The state after the step; `None` where it cannot go on. A call is left to its own steps.
    pub fn after(self, state: u64) -> Option<u64> {
        let bit = 1 << self.index;
        match self.kind {
            Kind::Query => (state & bit != 0).then_some(state),
            Kind::Insert => Some(state | bit),
            Kind::Delete => Some(state & !bit),
            Kind::Call => Some(state),
            Kind::Deny => (state & bit == 0).then_some(state),
        }
    }
}

/// Finished tables with the rules and the goal that they belong to.
#[derive(Clone, Copy, Debug)]
pub struct Tables<'a> {
    pub rules: &'a [u16],
    pub goal: &'a [u16],
    pub calls: &'a [u64],
    pub answers: &'a [u64],
}

/// One answer record.
#[derive(Clone, Copy, Debug)]
pub struct Answer<'a> {
    pub call: usize,
    pub state: u64,
    pub rule: u64,
    /// For each call step of the rule's body the number of the answer used, elsewhere 0.
    pub evidence: &'a [u64],
    /// The round that it came in.
    pub round: u64,
}

/// Words of a rule before its steps.
const RULE_HEAD: usize = 2;

impl<'a> Tables<'a> {
    /// The action and the state of a call record.
    pub fn call(&self, record: usize) -> (u64, u64) {
        let words = self.call_words(record);
        (words[0], words[1])
    }

    /// The round that a call record came in.
    pub fn call_round(&self, record: usize) -> u64 {
        self.call_words(record)[2]
    }

    fn call_words(&self, record: usize) -> &'a [u64] {
        &self.calls[CALL_WORDS * record..][..CALL_WORDS]
    }

    /// An answer record.
    pub fn answer(&self, record: usize) -> Answer<'a> {
        let words = &self.answers[ANSWER_WORDS * record..][..ANSWER_WORDS];
        let &[call, state, rule, ref evidence @ .., round] = words else { unreachable!("a record has 20 words") };
        Answer { call: call as usize, state, rule, evidence, round }
    }

    /// The step words of a rule's body; of the goal for [`GOAL_RULE`].
    pub fn body(&self, rule: u64) -> &'a [u16] {
        if rule == GOAL_RULE {
            return self.goal;
        }
        let words = &self.rules[RULE_WORDS * rule as usize..][..RULE_WORDS];
        &words[RULE_HEAD..RULE_HEAD + usize::from(words[1])]
    }

    /// How many events each of the first records unfolds to, at most `u64::MAX`: evidence has smaller numbers.
    pub fn sizes(&self, records: usize) -> Vec<u64> {
        let mut sizes: Vec<u64> = Vec::with_capacity(records);
        for record in 0..records {
            let answer = self.answer(record);
            let body = self.body(answer.rule).iter().zip(answer.evidence);
            let steps = body.map(|(&word, &used)| if Step::of(word).kind == Kind::Call { sizes[used as usize] } else { 1 });
            sizes.push(steps.fold(CALL_AND_BACK, u64::saturating_add));
        }
        sizes
    }
}

/// Events of an answer beside its steps.
const CALL_AND_BACK: u64 = 2;

/// One event of an execution. `at` counts the updates so far: it is the place in the path of the state come to.
#[derive(Clone, Copy, Debug, PartialEq, Eq)]
pub enum Event {
    /// An action is begun by one of its rules, called from a place of the body one level up.
    Call { depth: usize, action: u64, rule: u64, place: usize, state: u64, at: usize },
    /// An elementary step, the `place`-th of the body of `rule`.
    Step { depth: usize, action: u64, rule: u64, place: usize, word: u16, state: u64, at: usize },
    /// The action is finished.
    Back { depth: usize, at: usize },
}

/// An answer whose body is being gone through.
struct Frame<'a> {
    answer: Answer<'a>,
    action: u64,
    body: &'a [u16],
    place: usize,
}

impl<'a> Frame<'a> {
    fn of(tables: &Tables<'a>, record: usize) -> Frame<'a> {
        let answer = tables.answer(record);
        Frame { answer, action: tables.call(answer.call).0, body: tables.body(answer.rule), place: 0 }
    }

    fn begun(&self, depth: usize, place: usize, state: u64, at: usize) -> Event {
        Event::Call { depth, action: self.action, rule: self.answer.rule, place, state, at }
    }
}

/// Unfolds an answer record, without recursion. `state` in an event is the state before it.
pub fn unfold(tables: &Tables<'_>, record: usize) -> Vec<Event> {
    let first = Frame::of(tables, record);
    let (mut state, mut at) = (tables.call(first.answer.call).1, 0);
    let mut events = vec![first.begun(0, 0, state, at)];
    let mut frames = vec![first];
    while let Some(frame) = frames.last_mut() {
        let (place, rule, action) = (frame.place, frame.answer.rule, frame.action);
        let Some(&word) = frame.body.get(place) else {
            frames.pop();
            events.push(Event::Back { depth: frames.len(), at });
            continue;
        };
        frame.place += 1;
        let used = frame.answer.evidence[place] as usize;
        let step = Step::of(word);
        if step.kind == Kind::Call {
            let called = Frame::of(tables, used);
            events.push(called.begun(frames.len(), place, state, at));
            frames.push(called);
            continue;
        }
        let depth = frames.len() - 1;
        let after = step.after(state).unwrap_or(state);
        at += usize::from(step.is_update());
        events.push(Event::Step { depth, action, rule, place, word, state, at });
        state = after;
    }
    events
}

/// How the steps unfolded differ from the states that the library lists.
#[derive(Clone, Copy, Debug, PartialEq, Eq)]
pub enum Difference {
    /// An elementary step that cannot go on in the state that the steps before it give.
    Stopped { at: usize, word: u16, state: u64 },
    /// A step or call that says of itself another state than the steps before it give.
    Strayed { at: usize, told: u64, state: u64 },
    /// A step or call that says another number of the state come to than the steps before it give.
    Misnumbered { at: usize, told: usize },
    /// Another state in the same place.
    State { at: usize, replayed: u64, listed: u64 },
    /// Another number of states; `listed` is `None` where the library has more than were lent.
    Count { replayed: usize, listed: Option<usize> },
    /// A way from another state than asked for, or to another one.
    Ends { asked: (u64, u64), replayed: (u64, u64) },
    /// An event, counted from 0, that the library's tables do not have there.
    Structure { event: usize, wrong: Wrong },
}

/// What in an event is not as the library's tables have it.
#[derive(Clone, Copy, Debug, PartialEq, Eq)]
pub enum Wrong {
    /// A step, a call or an end of an action where the bodies have something else, or nothing more, or more.
    Order,
    /// Another depth than the number of actions begun and not finished.
    Depth,
    /// Another place than the next one of the body.
    Place,
    /// Another step word than stands there.
    Word,
    /// Another rule than the answer's.
    Rule,
    /// Another action than the call record's.
    Action,
    /// Another state than the call record or the answer has.
    State,
    /// A record that is not there.
    Record,
}

impl fmt::Display for Wrong {
    fn fmt(&self, f: &mut fmt::Formatter<'_>) -> fmt::Result {
        f.write_str(match self {
            Wrong::Order => "is not what comes next in the rules used",
            Wrong::Depth => "has a wrong depth",
            Wrong::Place => "has a wrong place in its rule",
            Wrong::Word => "has another step than its rule has there",
            Wrong::Rule => "has a wrong rule",
            Wrong::Action => "has a wrong action",
            Wrong::State => "has a wrong state",
            Wrong::Record => "needs a record that is not there",
        })
    }
}

impl fmt::Display for Difference {
    fn fmt(&self, f: &mut fmt::Formatter<'_>) -> fmt::Result {
        match *self {
            Difference::Stopped { at, word, state } => {
                write!(f, "after state {at} of the steps (number {state}) the step word {word} cannot go on")
            }
            Difference::Strayed { at, told, state } => {
                write!(f, "state {at} of the steps is {state}, and a step there says {told}")
            }
            Difference::Misnumbered { at, told } => {
                write!(f, "a step comes to state {at} of the steps and says {told}")
            }
            Difference::State { at, replayed, listed } => {
                write!(f, "state {at} of the steps is {replayed}, in the library's path it is {listed}")
            }
            Difference::Count { replayed, listed: Some(listed) } => {
                write!(f, "the steps have {replayed} states, the library's path has {listed}")
            }
            Difference::Count { replayed, listed: None } => {
                write!(f, "the steps have {replayed} states, the library's path has more")
            }
            Difference::Ends { asked, replayed } => {
                write!(
                    f,
                    "the steps lead from {} to {}, asked for was the way from {} to {}",
                    replayed.0, replayed.1, asked.0, asked.1
                )
            }
            Difference::Structure { event, wrong } => {
                write!(f, "event {event} of the steps {wrong}, by the library's tables")
            }
        }
    }
}

impl std::error::Error for Difference {}

/// The states of an execution, replayed from its first state and its elementary steps alone: the first, then one for each update.
pub fn replay(first: u64, events: &[Event]) -> Result<Vec<u64>, Difference> {
    let mut states = vec![first];
    let mut now = first;
    for event in events {
        let at = states.len() - 1;
        let (Event::Call { at: told, .. } | Event::Step { at: told, .. } | Event::Back { at: told, .. }) = *event;
        if let Event::Call { state: told, .. } | Event::Step { state: told, .. } = *event {
            if told != now {
                return Err(Difference::Strayed { at, told, state: now });
            }
        }
        if let Event::Step { word, .. } = *event {
            let step = Step::of(word);
            now = step.after(now).ok_or(Difference::Stopped { at, word, state: now })?;
            if step.is_update() {
                states.push(now);
            }
        }
        if told != states.len() - 1 {
            return Err(Difference::Misnumbered { at: states.len() - 1, told });
        }
    }
    Ok(states)
}

/// Holds the replayed states against those that the library lists.
pub fn hold(replayed: &[u64], listed: &[u64]) -> Result<(), Difference> {
    for (at, (&replayed, &listed)) in replayed.iter().zip(listed).enumerate() {
        if replayed != listed {
            return Err(Difference::State { at, replayed, listed });
        }
    }
    if replayed.len() != listed.len() {
        return Err(Difference::Count { replayed: replayed.len(), listed: Some(listed.len()) });
    }
    Ok(())
}

/// An answer on the way of [`hold_structure`], read from the tables anew and apart from [`Frame`]: a fault there is seen here.
struct Level<'a> {
    action: u64,
    rule: u64,
    /// The states of the call and of the answer.
    ends: (u64, u64),
    body: &'a [u16],
    evidence: &'a [u64],
    /// The place of the body that comes next.
    next: usize,
}

/// A record of so many words, if it is there.
fn nth<T>(words: &[T], size: usize, record: u64) -> Option<&[T]> {
    words.chunks_exact(size).nth(usize::try_from(record).ok()?)
}

impl<'a> Level<'a> {
    fn of(tables: &Tables<'a>, record: u64) -> Option<Level<'a>> {
        let &[call, end, rule, ref evidence @ .., _] = nth(tables.answers, ANSWER_WORDS, record)? else { return None };
        let &[action, start, _] = nth(tables.calls, CALL_WORDS, call)? else { return None };
        let body = if rule == GOAL_RULE {
            tables.goal
        } else {
            let &[_, length, ref steps @ ..] = nth(tables.rules, RULE_WORDS, rule)? else { return None };
            steps.get(..usize::from(length))?
        };
        Some(Level { action, rule, ends: (start, end), body, evidence, next: 0 })
    }

    /// The step that comes next.
    fn step(&self) -> Result<(u16, Step), Wrong> {
        let word = *self.body.get(self.next).ok_or(Wrong::Order)?;
        Ok((word, Step::of(word)))
    }
}

/// The walk of [`hold_structure`]: the answers begun and not finished, and the state come to.
struct Walk<'a> {
    tables: Tables<'a>,
    levels: Vec<Level<'a>>,
    now: u64,
}

/// Two values that must be the same.
fn same<T: PartialEq>(told: T, held: T, wrong: Wrong) -> Result<(), Wrong> {
    if told == held {
        Ok(())
    } else {
        Err(wrong)
    }
}

impl Walk<'_> {
    /// Begins an answer: the first event, or what stands next in the body of the level above.
    fn begin(&mut self, record: u64, held_place: usize, event: &Event) -> Result<(), Wrong> {
        let Event::Call { depth, action, rule, place, state, .. } = *event else { return Err(Wrong::Order) };
        let level = Level::of(&self.tables, record).ok_or(Wrong::Record)?;
        same(depth, self.levels.len(), Wrong::Depth)?;
        same(place, held_place, Wrong::Place)?;
        same(action, level.action, Wrong::Action)?;
        same(rule, level.rule, Wrong::Rule)?;
        same(state, level.ends.0, Wrong::State)?;
        self.levels.push(level);
        Ok(())
    }

    /// A call: the evidence at its place is the answer begun.
    fn call(&mut self, event: &Event) -> Result<(), Wrong> {
        let level = self.levels.last_mut().ok_or(Wrong::Order)?;
        let (_, step) = level.step()?;
        same(step.kind, Kind::Call, Wrong::Order)?;
        let (place, now) = (level.next, self.now);
        let record = *level.evidence.get(place).ok_or(Wrong::Record)?;
        level.next += 1;
        self.begin(record, place, event)?;
        let begun = self.levels.last().ok_or(Wrong::Order)?;
        same(begun.action, step.index as u64, Wrong::Action)?;
        same(begun.ends.0, now, Wrong::State)
    }

    /// An elementary step of the body.
    fn step(&mut self, event: &Event) -> Result<(), Wrong> {
        let Event::Step { depth, action, rule, place, word, state, .. } = *event else { return Err(Wrong::Order) };
        let height = self.levels.len();
        let level = self.levels.last_mut().ok_or(Wrong::Order)?;
        let (held, step) = level.step()?;
        same(step.kind == Kind::Call, false, Wrong::Order)?;
        same(depth, height - 1, Wrong::Depth)?;
        same(place, level.next, Wrong::Place)?;
        same(word, held, Wrong::Word)?;
        same(rule, level.rule, Wrong::Rule)?;
        same(action, level.action, Wrong::Action)?;
        same(state, self.now, Wrong::State)?;
        level.next += 1;
        self.now = step.after(state).ok_or(Wrong::State)?;
        Ok(())
    }

    /// The end of an action: its body is gone through and its answer's state come to.
    fn back(&mut self, told: usize) -> Result<(), Wrong> {
        let level = self.levels.pop().ok_or(Wrong::Order)?;
        same(level.next, level.body.len(), Wrong::Order)?;
        same(told, self.levels.len(), Wrong::Depth)?;
        same(self.now, level.ends.1, Wrong::State)
    }
}

/// Holds each event of an answer record against the tables: that it comes next, with its depth, place, word, rule, action and state.
pub fn hold_structure(tables: &Tables<'_>, record: usize, events: &[Event]) -> Result<(), Difference> {
    let mut walk = Walk { tables: *tables, levels: Vec::new(), now: 0 };
    for (event, told) in events.iter().enumerate() {
        let held = match *told {
            Event::Call { state, .. } if event == 0 => {
                walk.now = state;
                walk.begin(record as u64, 0, told)
            }
            Event::Call { .. } => walk.call(told),
            Event::Step { .. } => walk.step(told),
            Event::Back { depth, .. } => walk.back(depth),
        };
        held.map_err(|wrong| Difference::Structure { event, wrong })?;
    }
    if events.is_empty() || !walk.levels.is_empty() {
        return Err(Difference::Structure { event: events.len(), wrong: Wrong::Order });
    }
    Ok(())
}

#[cfg(test)]
mod tests {
    use super::*;

    /// Drill D1's tables: purge: +open; light: !purge ?open +lit -open; goal !light.
    const RULES: [u16; 2 * RULE_WORDS] = {
        let mut rules = [0; 2 * RULE_WORDS];
        (rules[1], rules[2]) = (1, 256);
        (rules[18], rules[19], rules[20], rules[22], rules[23]) = (1, 4, 768, 257, 512);
        rules
    };
    const CALLS: [u64; 9] = [64, 0, 0, 1, 0, 1, 0, 0, 2];
    const PATH: [u64; 4] = [0, 1, 3, 2];

    fn answers() -> Vec<u64> {
        let mut answers = vec![0; 3 * ANSWER_WORDS];
        answers[..3].copy_from_slice(&[2, 1, 0]);
        answers[20..23].copy_from_slice(&[1, 2, 1]);
        answers[40..44].copy_from_slice(&[0, 2, GOAL_RULE, 1]);
        (answers[19], answers[39], answers[59]) = (3, 4, 5);
        answers
    }

    fn events() -> Vec<Event> {
        let answers = answers();
        unfold(&Tables { rules: &RULES, goal: &[769], calls: &CALLS, answers: &answers }, 2)
    }

    /// What the structure of the events is told to have wrong.
    fn structure(events: &[Event]) -> Result<(), Difference> {
        let answers = answers();
        hold_structure(&Tables { rules: &RULES, goal: &[769], calls: &CALLS, answers: &answers }, 2, events)
    }

    /// The good events with one of them changed.
    fn changed(event: usize, change: impl FnOnce(&mut Event)) -> Vec<Event> {
        let mut events = events();
        change(&mut events[event]);
        events
    }

    fn wrong(event: usize, wrong: Wrong) -> Result<(), Difference> {
        Err(Difference::Structure { event, wrong })
    }

    #[test]
    fn sizes_count_the_events() {
        let answers = answers();
        let tables = Tables { rules: &RULES, goal: &[769], calls: &CALLS, answers: &answers };
        assert_eq!(tables.sizes(3), [3, 8, 10]);
        assert_eq!(events().len(), 10);
    }

    #[test]
    fn replayed_steps_give_the_path() {
        let replayed = replay(0, &events()).unwrap();
        assert_eq!(hold(&replayed, &PATH), Ok(()));
        assert_eq!(structure(&events()), Ok(()));
    }

    /// Each elementary step in turn is exchanged for each other step word of the two fluents: every change is told.
    #[test]
    fn every_planted_step_is_told() {
        let good = events();
        let mut planted = 0;
        for place in 0..good.len() {
            let Event::Step { word: old, .. } = good[place] else { continue };
            for word in [0, 1, 256, 257, 512, 513, 1024, 1025] {
                let mut events = good.clone();
                if let Event::Step { word: slot, .. } = &mut events[place] {
                    *slot = word;
                }
                let told = replay(0, &events).and_then(|replayed| hold(&replayed, &PATH));
                assert_eq!(told.is_ok(), word == old || harmless(old, word), "{old} exchanged for {word}");
                assert_eq!(structure(&events).is_ok(), word == old, "{old} exchanged for {word}");
                planted += usize::from(told.is_err());
            }
        }
        assert_eq!(planted, 27);
    }

    /// The query of `open`, where `open` holds and `lit` does not, may be exchanged for `~lit`: the states are the same, and the
    /// structure alone tells it.
    fn harmless(old: u16, word: u16) -> bool {
        old == 0 && word == 1025
    }

    #[test]
    fn lost_doubled_and_strayed_steps_are_told() {
        let good = events();
        for place in 0..good.len() {
            let Event::Step { word, .. } = good[place] else { continue };
            let mut lost = good.clone();
            lost.remove(place);
            let told = replay(0, &lost).and_then(|replayed| hold(&replayed, &PATH));
            assert_eq!(told.is_err(), Step::of(word).is_update(), "step {place} lost, by the states");
            assert!(matches!(structure(&lost), Err(Difference::Structure { .. })), "step {place} lost");
            let mut doubled = good.clone();
            doubled.insert(place, good[place]);
            assert!(matches!(structure(&doubled), Err(Difference::Structure { .. })), "step {place} doubled");
            let mut strayed = good.clone();
            if let Event::Step { state, .. } = &mut strayed[place] {
                *state ^= 1;
            }
            assert!(matches!(replay(0, &strayed), Err(Difference::Strayed { .. })));
            let mut misnumbered = good.clone();
            if let Event::Step { at, .. } = &mut misnumbered[place] {
                *at += 1;
            }
            assert!(matches!(replay(0, &misnumbered), Err(Difference::Misnumbered { .. })));
        }
    }

    /// Events 0 to 9: goal, light, purge, +open, back, ?open, +lit, -open, back, back. The query lost leaves the states alone.
    #[test]
    fn a_lost_query_is_told() {
        let mut lost = events();
        lost.remove(5);
        assert!(replay(0, &lost).and_then(|replayed| hold(&replayed, &PATH)).is_ok());
        assert_eq!(structure(&lost), wrong(5, Wrong::Place));
    }

    /// Every event of the three kinds lost, at the ends too, is told, and so is an event too many.
    #[test]
    fn every_lost_event_is_told() {
        for event in 0..events().len() {
            let mut lost = events();
            lost.remove(event);
            assert!(structure(&lost).is_err(), "event {event} lost");
            let mut doubled = events();
            doubled.insert(event, doubled[event]);
            assert!(structure(&doubled).is_err(), "event {event} doubled");
            assert_eq!(structure(&events()[..event]), wrong(event, Wrong::Order));
        }
        let mut lost = events();
        lost.remove(4);
        assert_eq!(structure(&lost), wrong(4, Wrong::Order), "the end of purge lost");
    }

    #[test]
    fn a_wrong_rule_or_action_is_told() {
        for event in [0, 1, 2, 3, 5, 6, 7] {
            let other = changed(event, |e| {
                let (Event::Call { rule, .. } | Event::Step { rule, .. }) = e else { unreachable!() };
                *rule = rule.wrapping_sub(1);
            });
            assert_eq!(structure(&other), wrong(event, Wrong::Rule));
            let other = changed(event, |e| {
                let (Event::Call { action, .. } | Event::Step { action, .. }) = e else { unreachable!() };
                *action ^= 1;
            });
            assert_eq!(structure(&other), wrong(event, Wrong::Action));
        }
    }

    #[test]
    fn a_wrong_depth_or_place_is_told() {
        for event in 0..events().len() {
            for told in [0, 1, 2, 3, usize::MAX] {
                let mut good = false;
                let other = changed(event, |e| {
                    let (Event::Call { depth, .. } | Event::Step { depth, .. } | Event::Back { depth, .. }) = e;
                    good = *depth == told;
                    *depth = told;
                });
                assert_eq!(structure(&other), if good { Ok(()) } else { wrong(event, Wrong::Depth) });
            }
            let other = changed(event, |e| {
                if let Event::Call { place, .. } | Event::Step { place, .. } = e {
                    *place = usize::MAX;
                }
            });
            let held = if matches!(other[event], Event::Back { .. }) { Ok(()) } else { wrong(event, Wrong::Place) };
            assert_eq!(structure(&other), held);
        }
    }

    /// The events of another record, and those of the right one with the call begun in another state.
    #[test]
    fn a_wrong_call_record_is_told() {
        let answers = answers();
        let tables = Tables { rules: &RULES, goal: &[769], calls: &CALLS, answers: &answers };
        assert_eq!(hold_structure(&tables, 2, &unfold(&tables, 1)), wrong(0, Wrong::Action));
        assert_eq!(hold_structure(&tables, 3, &events()), wrong(0, Wrong::Record));
        assert_eq!(hold_structure(&tables, usize::MAX, &events()), wrong(0, Wrong::Record));
        for event in 0..3 {
            let other = changed(event, |e| {
                let Event::Call { state, .. } = e else { unreachable!() };
                *state ^= 2;
            });
            assert_eq!(structure(&other), wrong(event, Wrong::State));
        }
        let mut another = self::answers();
        another[ANSWER_WORDS + 1] = 3;
        let tables = Tables { answers: &another, ..tables };
        assert_eq!(hold_structure(&tables, 2, &events()), wrong(8, Wrong::State), "the answer has another state");
    }

    /// No word that an event says is looked up: one of no kind is told too.
    #[test]
    fn a_word_of_no_kind_is_told() {
        let other = changed(5, |e| {
            let Event::Step { word, .. } = e else { unreachable!() };
            *word = u16::MAX;
        });
        assert_eq!(structure(&other), wrong(5, Wrong::Word));
        assert_eq!(structure(&[]), wrong(0, Wrong::Order));
    }

    #[test]
    fn another_number_of_states_is_told() {
        assert_eq!(hold(&PATH[..3], &PATH), Err(Difference::Count { replayed: 3, listed: Some(4) }));
        assert_eq!(hold(&[0, 1, 1], &PATH[..3]), Err(Difference::State { at: 2, replayed: 1, listed: 3 }));
    }

    #[test]
    fn an_update_without_effect_has_its_state() {
        let step = |word, at| Event::Step { depth: 0, action: 0, rule: 0, place: 0, word, state: 1, at };
        assert_eq!(replay(1, &[step(256, 1), step(1025, 1), step(256, 2)]), Ok(vec![1, 1, 1]));
    }
}
