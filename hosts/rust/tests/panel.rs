//! Two parties on one panel: what each run gives and leaves, in tables lent and in a `Panel`'s own.

use std::error::Error;
use std::thread;

use lawhemuri::{
    open, share, share_path, Counts, Kept, Limits, Panel, Party, PartyRun, Question, Refusal, Shared, Trouble, Uncounted,
    KEPT_WORDS, MOST_RECORDS, SHARED_ANSWER_WORDS, SHARED_CALL_WORDS, STACK_SHARE,
};

const MARK: u64 = 0x5555_5555_5555_5555;
const LIMITS: Limits = Limits { calls: 2, answers: 4 };
use Party::{First, Second};

/// Drill D2: g: !g ?a +b; g: +a.
const RULES: [u16; 36] = {
    let mut rules = [0; 36];
    (rules[1], rules[2], rules[4]) = (3, 768, 257);
    (rules[19], rules[20]) = (1, 256);
    rules
};

fn asked(goal: &[u16], start: u64) -> Question<'_> {
    Question { fluents: 2, actions: 1, rules: &RULES, goal, start }
}

/// Room for 4 calls and 10 answers, and some words more, opened for both parties' limits.
struct Lent {
    calls: Vec<u64>,
    answers: Vec<u64>,
    kept: Kept,
}

impl Lent {
    fn opened() -> Lent {
        let (mut calls, mut answers) = (vec![MARK; 4 * SHARED_CALL_WORDS + 1], vec![MARK; 10 * SHARED_ANSWER_WORDS + 7]);
        let kept = open(LIMITS, LIMITS, &mut calls, &mut answers).unwrap();
        assert!(calls.iter().chain(&answers).all(|&word| word == 0));
        Lent { calls, answers, kept }
    }

    /// What a run gives, with a list of so many places, and what the list then holds.
    fn share(&mut self, party: Party, question: &Question<'_>, places: usize) -> (Result<Counts, Uncounted>, Vec<u64>) {
        let mut ends = vec![MARK; places];
        let mut lent = Shared { calls: &mut self.calls, answers: &mut self.answers, ends: &mut ends };
        (share(party, question, &mut self.kept, &mut lent), ends)
    }

    fn words(&self) -> (Vec<u64>, Vec<u64>, Kept) {
        (self.calls.clone(), self.answers.clone(), self.kept)
    }

    /// The calls, in rising order; past the records both tables are 0.
    fn held(&self) -> Vec<(u64, u64)> {
        let (calls, past) = self.calls.split_at(SHARED_CALL_WORDS * self.kept.calls());
        assert!(past.iter().chain(&self.answers[SHARED_ANSWER_WORDS * self.kept.answers()..]).all(|&word| word == 0));
        let mut held: Vec<(u64, u64)> = calls.chunks_exact(SHARED_CALL_WORDS).map(|call| (call[0], call[1])).collect();
        held.sort();
        held
    }

    fn path(&self, record: usize, places: usize) -> (Result<usize, Refusal>, Vec<u64>) {
        let mut states = vec![MARK; places];
        (share_path(&asked(&[], 0), &self.kept, &self.calls, &self.answers, record, &mut states), states)
    }
}

fn counts(ends: usize, calls: usize, answers: usize) -> Counts {
    Counts { ends, calls, answers }
}

fn refused(refusal: Refusal) -> Result<Counts, Uncounted> {
    Err(Uncounted { refusal, counts: Counts::default() })
}

/// The second party's rows, after a row of runs of both.
fn after_a_row() -> Lent {
    let mut lent = Lent::opened();
    let short = Err(Uncounted { refusal: Refusal::ListShort, counts: counts(2, 2, 4) });
    assert_eq!(lent.share(First, &asked(&[768], 0), 3), (Ok(counts(2, 2, 4)), vec![1, 3, MARK]));
    assert_eq!((lent.held(), lent.kept.answers()), (vec![(0, 0), (64, 0)], 4));
    assert_eq!(lent.share(Second, &asked(&[768], 0), 1), (short, vec![MARK]));
    assert_eq!((lent.held(), lent.kept.answers()), (vec![(0, 0), (64, 0), (65, 0)], 6));
    assert_eq!(lent.share(Second, &asked(&[768, 1], 0), 1), (Ok(counts(1, 2, 3)), vec![3]));
    assert_eq!((lent.held(), lent.kept.answers()), (vec![(0, 0), (64, 0), (65, 0)], 5));
    assert_eq!(lent.share(First, &asked(&[768], 2), 1), (Ok(counts(1, 2, 2)), vec![3]));
    assert_eq!((lent.held(), lent.kept.answers()), (vec![(0, 0), (0, 2), (64, 2), (65, 0)], 5));
    assert!(lent.kept.holds(First) && lent.kept.holds(Second));
    for (goal, start, refusal) in
        [(&[769][..], 0, Refusal::BadGoal), (&[768, 768], 0, Refusal::TablesFull), (&[768], 4, Refusal::BadStart)]
    {
        assert_eq!(lent.share(First, &asked(goal, start), 2), (refused(refusal), vec![MARK; 2]));
        assert_eq!((lent.held(), lent.kept.answers()), (vec![(0, 0), (65, 0)], 3));
        assert_eq!((lent.kept.holds(First), lent.kept.holds(Second)), (false, true));
    }
    assert_eq!([First, Second].map(|party| lent.kept.limits(party)), [LIMITS; 2]);
    lent
}

#[test]
fn words_kept() {
    let lent = after_a_row();
    let mut words = [0; KEPT_WORDS];
    (words[0], words[1], words[21], words[22]) = (2, 4, 2, 4);
    (words[23], words[25], words[26], words[27]) = (1, 2, 768, 1);
    (words[42], words[43]) = (2, 3);
    assert_eq!(lent.kept, Kept(words));
}

#[test]
fn openings() {
    let (mut calls, mut answers) = ([MARK; 9], [MARK; 197]);
    let limits = |calls, answers| Limits { calls, answers };
    for (first, second) in [
        (limits(3, 4), LIMITS),
        (LIMITS, limits(2, 7)),
        (limits(usize::MAX, 0), limits(usize::MAX, 0)),
        (limits(0, 1), limits(0, usize::MAX)),
    ] {
        assert_eq!(open(first, second, &mut calls, &mut answers), Err(Refusal::OverLimits));
        assert_eq!((calls, answers), ([MARK; 9], [MARK; 197]));
    }
    assert!(open(limits(4, 0), limits(0, 10), &mut calls, &mut answers).is_ok());
    assert_eq!((calls, answers), ([0; 9], [0; 197]));
}

/// 20 to 22 and 91 change nothing; 91 comes before 23 and 24.
#[test]
fn not_as_kept() {
    let mut lent = after_a_row();
    let before = lent.words();
    let many = Question { fluents: 65, ..asked(&[768], 0) };
    assert_eq!(lent.share(First, &many, 2), (refused(Refusal::BadCounts), vec![MARK; 2]));
    assert_eq!(lent.words(), before);
    for (word, value) in [(23, 0), (2, 1), (26, 769), (25, 17), (24, 4), (24, 1), (21, 1), (22, 2), (0, 3), (42, 3), (43, 4)] {
        lent.kept.0[word] = value;
        let changed = lent.words();
        assert_eq!(lent.share(First, &asked(&[769], 4), 2), (refused(Refusal::NotAsKept), vec![MARK; 2]));
        assert_eq!(lent.words(), changed);
        lent.kept = before.2;
    }
    lent.calls[0] = 63;
    assert_eq!(lent.share(First, &asked(&[768], 0), 2), (refused(Refusal::NotAsKept), vec![MARK; 2]));
    assert_eq!((lent.calls[0], &lent.answers), (63, &before.1));
    lent.calls[0] = before.0[0];
    assert_eq!(lent.share(First, &asked(&[768], 0), 2), (Ok(counts(2, 2, 4)), vec![1, 3]));
}

#[test]
fn paths() {
    let lent = after_a_row();
    let record = |action, end| {
        let mut answers = lent.answers.chunks_exact(SHARED_ANSWER_WORDS).take(lent.kept.answers());
        answers.position(|a| lent.calls[2 * a[0] as usize] == action && a[1] == end).unwrap()
    };
    assert_eq!(lent.path(record(0, 1), 4), (Ok(2), vec![0, 1, MARK, MARK]));
    assert_eq!(lent.path(record(0, 3), 3), (Ok(3), vec![0, 1, 3]));
    assert_eq!(lent.path(record(65, 3), 4), (Ok(3), vec![0, 1, 3, MARK]));
    assert_eq!(lent.path(record(65, 3), 2), (Err(Refusal::StatesShort), vec![MARK; 2]));
    assert_eq!(lent.path(3, 2), (Err(Refusal::NoRecord), vec![MARK; 2]));
    for (word, value, refusal) in [
        (26, 769, Refusal::BadGoal),
        (42, 5, Refusal::BadRecordCount),
        (43, 11, Refusal::BadRecordCount),
        (23, 0, Refusal::BadRecord),
    ] {
        let mut kept = lent.kept;
        kept.0[word] = value;
        let mut states = [MARK; 4];
        assert_eq!(share_path(&asked(&[], 0), &kept, &lent.calls, &lent.answers, 0, &mut states), Err(refusal));
        assert_eq!(states, [MARK; 4]);
    }
}

/// The same in a panel's own memory.
#[test]
fn panels() -> Result<(), Box<dyn Error>> {
    let mut panel = Panel::open(LIMITS, Limits { calls: 2, answers: 6 })?;
    assert_eq!((panel.calls.len(), panel.answers.len()), (8, 190));
    assert_eq!(panel.share(First, &asked(&[768], 0))?, PartyRun { counts: counts(2, 2, 4), ends: vec![1, 3] });
    assert_eq!(panel.share(Second, &asked(&[768, 1], 0))?.ends, [3]);
    assert_eq!((panel.kept.calls(), panel.kept.answers()), (3, 5));
    let records = [(First, 1), (First, 3), (Second, 3), (Second, 1)].map(|(party, end)| panel.record(party, end));
    assert_eq!((records.map(|record| record.is_some()), records[1] == records[2]), ([true, true, true, false], false));
    assert_eq!(panel.path(&asked(&[], 0), records[2].unwrap(), 9)?, Some(vec![0, 1, 3]));
    assert_eq!(panel.path(&asked(&[], 0), records[2].unwrap(), 2)?, None);
    let said = |trouble: Trouble| trouble.to_string();
    let full = panel.share(First, &asked(&[768, 768], 0)).map_err(said);
    assert_eq!(full, Err("refused 30: the tables have too little room for the run".into()));
    assert_eq!(panel.record(First, 1), None);
    panel.kept.0[43] += 1;
    let other = panel.share(First, &asked(&[768], 0)).map_err(said);
    assert_eq!(
        other,
        Err("refused 91: the tables of two parties, or what is kept beside them, are not as they were left".into())
    );
    // A number of no call record: no record is one of it.
    panel.answers[..SHARED_ANSWER_WORDS * 3].fill(u64::MAX);
    assert_eq!(panel.record(Second, u64::MAX), None);
    let most = Limits { calls: MOST_RECORDS, answers: MOST_RECORDS };
    assert_eq!(
        Panel::open(most, LIMITS).unwrap_err().to_string(),
        "refused 90: the limits of both parties are more than the tables have room for"
    );
    assert!(Panel::open(most, Limits::default()).is_ok());
    Ok(())
}

/// 13 actions in a row, each of which inserts its fluent or does nothing, for both parties: in tables for 65,536 records a thread with the
/// stack that the header asks for gives what any other gives, in every word.
#[test]
fn stack_of_a_run() {
    let mut rules = [0; 13 * 36];
    for i in 0..13 {
        let at = 36 * usize::from(i);
        rules[at..at + 3].copy_from_slice(&[i, 1, 256 + i]);
        rules[at + 18] = i;
    }
    let goal: Vec<u16> = (0..13).map(|i| 768 + i).collect();
    let runs = || {
        let half = Limits { calls: MOST_RECORDS / 2, answers: MOST_RECORDS / 2 };
        let mut panel = Panel::open(half, half).unwrap();
        let mut ends = vec![MARK; 8192];
        let Panel { calls, answers, kept } = &mut panel;
        let mut lent = Shared { calls, answers, ends: &mut ends };
        let told = [(First, 0), (Second, 8192)].map(|(party, start)| {
            let question = Question { fluents: 14, actions: 13, rules: &rules, goal: &goal, start };
            share(party, &question, kept, &mut lent)
        });
        (panel, ends, told)
    };
    let there = thread::scope(|scope| {
        let exact = thread::Builder::new().stack_size(STACK_SHARE).spawn_scoped(scope, runs).unwrap();
        exact.join().unwrap()
    });
    assert_eq!(there.2, [Ok(counts(8192, 8192, 24574)); 2]);
    assert_eq!((there.0.kept.calls(), there.0.kept.answers(), there.1[8191]), (16384, 49148, 16383));
    assert!(there == runs());
}
