//! The operations as a host meets them: results, refusals, and what each buffer holds afterwards.

use std::error::Error;
use std::thread;

use lawhemuri::{
    class, evaluate, fluent_name, mark, merge, merged_fluent, outcomes, path, read, report, report_of, report_words, restore,
    store, write, Buffers, Calls, Counts, Fraction, OfStart, Question, Records, Refusal, Report, Run, Uncounted, Unmerged,
    Unread, Unrun, ANSWER_WORDS, CALL_WORDS, MARK_WORDS, MOST_ACTIONS, MOST_CALL_ROUND, MOST_FLUENTS, MOST_RECORDED,
    STACK_EVALUATE,
};

const EXAMPLE: &[u8] = b"fluent\topen\nfluent\tlit\naction\tpurge\naction\tlight\nrule\tpurge\t+open\n\
rule\tlight\t!purge\t?open\t+lit\t-open\nstart\ngoal\t!light\n";

const MARK: u64 = 0x5555_5555_5555_5555;

/// Drill D2: g: !g ?a +b; g: +a.
fn left_recursion() -> Vec<u16> {
    let mut rules = vec![0; 36];
    rules[..5].copy_from_slice(&[0, 3, 768, 0, 257]);
    rules[18..21].copy_from_slice(&[0, 1, 256]);
    rules
}

fn with_rooms(
    question: &Question<'_>,
    calls: usize,
    answers: usize,
    ends: usize,
) -> (Result<Run, Unrun>, Vec<u64>, Vec<u64>, Vec<u64>) {
    let (run, c, a, e, _) = with_list(question, [calls, answers, ends, calls]);
    (run, c, a, e)
}

/// The same with a list of calls of any length: rooms of calls, answers, ends and list, and what each buffer then holds.
#[allow(clippy::type_complexity)]
fn with_list(question: &Question<'_>, rooms: [usize; 4]) -> (Result<Run, Unrun>, Vec<u64>, Vec<u64>, Vec<u64>, Vec<u64>) {
    let [mut c, mut a, mut e, mut l] =
        [CALL_WORDS * rooms[0], ANSWER_WORDS * rooms[1], rooms[2], rooms[3]].map(|words| vec![MARK; words]);
    let run = evaluate(question, &mut Buffers { calls: &mut c, answers: &mut a, ends: &mut e, list: &mut l });
    (run, c, a, e, l)
}

#[test]
fn example_sheet() {
    let mut rules = [7; 40];
    let sheet = read(EXAMPLE, &mut rules).unwrap();
    assert_eq!((sheet.fluents, sheet.actions, sheet.rules, sheet.start), (2, 2, 2, 0));
    assert_eq!(sheet.goal(), [769]);
    assert_eq!(rules[36..], [7; 4]);
    assert_eq!(fluent_name(EXAMPLE, 1), b"lit");
    assert_eq!(fluent_name(EXAMPLE, 2), b"");
    let (run, _, _, ends) = with_rooms(&sheet.question(&rules), 512, 256, 256);
    assert_eq!(run, Ok(Run { ends: 1, calls: 3, answers: 3, rounds: 5 }));
    assert_eq!(ends[..2], [2, MARK]);
}

/// A goal of 11 calls in a row, each of an action that inserts its fluent or does nothing.
fn choices() -> (Vec<u16>, Vec<u16>) {
    let mut rules = vec![0; 22 * 18];
    for i in 0..11u16 {
        let at = 36 * usize::from(i);
        rules[at..at + 3].copy_from_slice(&[i, 1, 256 + i]);
        rules[at + 18] = i;
    }
    (rules, (0..11).map(|i| 768 + i).collect())
}

/// In a thread with the stack that the header asks for a run gives what it gives in any other, in every word.
#[test]
fn small_stack() {
    let drill = (left_recursion(), vec![768]);
    for ((rules, goal), fluents, actions, told) in [
        (drill, 2, 1, Run { ends: 2, calls: 2, answers: 4, rounds: 4 }),
        (choices(), 11, 11, Run { ends: 2048, calls: 2048, answers: 6142, rounds: 23 }),
    ] {
        let run = || with_list(&Question { fluents, actions, rules: &rules, goal: &goal, start: 0 }, [2048, 6144, 2048, 2048]);
        let here = run();
        let there = thread::scope(|scope| {
            let small = thread::Builder::new().stack_size(STACK_EVALUATE).spawn_scoped(scope, run).unwrap();
            small.join().unwrap()
        });
        assert_eq!(here.0, Ok(told));
        assert!(here == there);
    }
}

#[test]
fn fixed_text() {
    let dressed = b"# a\tb c\r\nfluent\ta\r\nfluent\tb\n#\naction\tg\r\nrule\tg\t+a\t?b\r\nstart\tb\ta\r\ngoal\t!g\r\n# end\n";
    let plain = b"fluent\ta\nfluent\tb\naction\tg\nrule\tg\t+a\t?b\nstart\ta\tb\ngoal\t!g\n";
    let mut text = [7; 60];
    assert_eq!(write(dressed, &mut text), Ok(58));
    assert_eq!(text[..58], plain[..]);
    assert_eq!(text[58..], [7; 2]);
    assert_eq!(fluent_name(dressed, 0).as_ptr(), dressed[16..].as_ptr());
    assert_eq!(fluent_name(dressed, 0), b"a");
    let (mut rules, mut again) = ([0; 18], [0; 18]);
    assert_eq!(read(dressed, &mut rules), read(&text[..58], &mut again));
    assert_eq!(rules, again);
    assert_eq!(write(plain, &mut text), Ok(58));
    assert_eq!(text[..58], plain[..]);
    let mut short = [7; 57];
    assert_eq!(write(dressed, &mut short), Err(Unread { refusal: Refusal::TextShort, line: 0 }));
    assert_eq!(short, [7; 57]);
    assert_eq!(write(b"# 1\nfluent\tA\n", &mut short), Err(Unread { refusal: Refusal::BadField, line: 2 }));
    assert_eq!(short, [7; 57]);
}

#[test]
fn two_sheets() {
    let maker = b"fluent\ta\nfluent\tb\naction\tg\nrule\tg\t+a\nstart\ta\ngoal\t!g\n".as_slice();
    let site = b"# site\r\nfluent\tc\r\nfluent\ta\r\naction\th\r\naction\tg\r\nrule\tg\t+a\r\nrule\th\t-c\t!g\r\nrule\th\t-c\t!g\r\nstart\tc\r\ngoal\t!h\r\n";
    let both = b"fluent\ta\nfluent\tb\nfluent\tc\naction\tg\naction\th\nrule\tg\t+a\nrule\th\t-c\t!g\nstart\ta\tc\ngoal\t!g\n";
    let turned = b"fluent\tc\nfluent\ta\nfluent\tb\naction\th\naction\tg\nrule\tg\t+a\nrule\th\t-c\t!g\nrule\th\t-c\t!g\nstart\tc\ta\ngoal\t!h\n";
    let mut text = [7; 100];
    assert_eq!(merge(maker, site, &mut text), Ok(86));
    assert_eq!((&text[..86], &text[86..]), (&both[..], &[7; 14][..]));
    assert_eq!(merge(site, maker, &mut text), Ok(99));
    assert_eq!((&text[..99], text[99]), (&turned[..], 7));
    assert_eq!(merge(maker, maker, &mut text), Ok(maker.len()));
    assert_eq!(&text[..maker.len()], maker);
    let names: Vec<&[u8]> = (0..4).map(|fluent| merged_fluent(maker, site, fluent)).collect();
    assert_eq!(names, vec![b"a".as_slice(), b"b", b"c", b""]);
    assert_eq!(names[0].as_ptr(), maker[7..].as_ptr());
    assert_eq!(names[2].as_ptr(), site[15..].as_ptr());
    let mut short = [7; 85];
    let mut refused = |first: &[u8], second: &[u8]| {
        let Err(Unmerged { refusal, sheet, line }) = merge(first, second, &mut short) else { panic!("merged") };
        assert_eq!(short, [7; 85]);
        (refusal.number(), sheet, line)
    };
    assert_eq!(refused(maker, site), (50, 0, 0));
    assert_eq!(refused(b"fluent\tA\n", b"start\ngoal"), (14, 1, 1));
    assert_eq!(refused(maker, b"start\ngoal"), (12, 2, 0));
    assert_eq!(refused(maker, b"# x\nfluent\tA\n"), (14, 2, 2));
    let crossed = b"action\ta\nstart\ngoal\n";
    assert_eq!(refused(maker, crossed), (70, 0, 0));
    assert_eq!(refused(crossed, maker), (70, 0, 0));
    assert_eq!(merged_fluent(maker, crossed, 0), b"");
}

/// A sheet of 64 fluents, and of rules of 16 equal steps for one action; all names have 16 bytes.
fn long_sheet(rules: usize, head: &str) -> Vec<u8> {
    let (names, head): (Vec<String>, String) = ((0..64).map(|k| format!("abcdefghijklmn{k:02}")).collect(), head.repeat(16));
    let mut sheet: String = names.iter().map(|name| format!("fluent\t{name}\n")).collect();
    sheet += &format!("action\t{head}\n");
    for k in 0..rules {
        sheet += &format!("rule\t{head}{}\n", format!("\t{}{}", ["+", "-", "?", "~"][k / 64], names[k % 64]).repeat(16));
    }
    (sheet + "start\ngoal\n").into_bytes()
}

#[test]
fn limits_of_two_sheets() {
    let numbered = |word: &str, names: std::ops::Range<usize>| names.map(|k| format!("{word}\tx{k}\n")).collect::<String>();
    let full = numbered("fluent", 0..64) + "start\ngoal\n";
    let mut text = vec![0; 65536];
    let mut merged = |first: &str, second: &str| {
        merge(first.as_bytes(), second.as_bytes(), &mut text).map_err(|e| (e.refusal.number(), e.sheet, e.line))
    };
    assert_eq!(merged(&full, "fluent\tx63\nstart\tx63\ngoal\n"), Ok(709));
    assert_eq!(merged(&full, "fluent\ty\nstart\ngoal\n"), Err((17, 0, 0)));
    assert_eq!(merged(&full, "fluent\ty\naction\tx0\nstart\ngoal\n"), Err((70, 0, 0)));
    let rules = "action\tg\n".to_string() + &"rule\tg\n".repeat(256) + "start\ngoal\n";
    assert_eq!(merged(&rules, "action\tg\nrule\tg\t!g\nstart\ngoal\n"), Err((17, 0, 0)));
    assert_eq!(merged(&rules, "action\tg\nrule\tg\nstart\ngoal\n"), Ok(1812));
    let (g, h) = (long_sheet(103, "g"), long_sheet(103, "h"));
    assert_eq!(merge(&g, &h, &mut text), Ok(65455));
    assert_eq!(
        merge(&long_sheet(104, "g"), &long_sheet(104, "h"), &mut text),
        Err(Unmerged { refusal: Refusal::TooLong, sheet: 0, line: 0 })
    );
}

#[test]
fn comments_and_line_ends() {
    let mut rules = [7; 18];
    let mut refusal = |sheet: &[u8]| read(sheet, &mut rules).map_err(|e| (e.refusal.number(), e.line)).err();
    assert_eq!(refusal(b"# a\tb c\r\nstart\r\n#\ngoal\r\n# end\r\n"), None);
    for sheet in
        [b"start \ngoal\n".as_slice(), b" # x\n", b"start\r\r\ngoal\n", b"start\ngoal\r", b"#a\rb\n", b"#\x7f\n", b"#\x1f\n"]
    {
        assert_eq!(refusal(sheet), Some((11, 0)), "{sheet:?}");
    }
    assert_eq!(refusal(b"start\ngoal\n# x y"), Some((12, 0)));
    assert_eq!(refusal(b"\r\nstart\ngoal\n"), Some((13, 1)));
    assert_eq!(refusal(b"# 1\n# 2\nfluent\tA\n"), Some((14, 3)));
    assert_eq!(refusal(b"start\r\ngoal\t\r\n"), Some((14, 2)));
}

#[test]
fn name_is_a_part_of_the_sheet() {
    let name = fluent_name(EXAMPLE, 0);
    assert_eq!(name.as_ptr(), EXAMPLE[7..].as_ptr());
}

#[test]
fn refused_sheets() {
    let mut rules = [7; 4608];
    let mut refusal = |sheet: &[u8]| read(sheet, &mut rules).unwrap_err();
    let unread = |refusal, line| Unread { refusal, line };
    assert_eq!(refusal(&[b'\n'; 65537]), unread(Refusal::TooLong, 0));
    assert_eq!(refusal(b"fluent open\n"), unread(Refusal::BadByte, 0));
    assert_eq!(refusal(b"start"), unread(Refusal::NotEnded, 0));
    assert_eq!(refusal(b"\n"), unread(Refusal::BadWord, 1));
    assert_eq!(refusal(b"start\ngoal\t\n"), unread(Refusal::BadField, 2));
    assert_eq!(refusal(b"fluent\ta\naction\ta\n"), unread(Refusal::Repeated, 2));
    assert_eq!(refusal(b"start\ta\n"), unread(Refusal::Undefined, 1));
    assert_eq!(refusal(&[b"start\ngoal".as_slice(), &b"\t+a".repeat(17), b"\n"].concat()), unread(Refusal::TooMany, 2));
    assert_eq!(refusal(b""), unread(Refusal::Incomplete, 0));
    assert!(rules.iter().all(|&w| w == 7));
    assert_eq!(read(EXAMPLE, &mut [7; 35]), Err(unread(Refusal::NoRoom, 0)));
}

#[test]
fn left_recursion_and_its_rooms() {
    let rules = left_recursion();
    let question = Question { fluents: 2, actions: 1, rules: &rules, goal: &[768], start: 0 };
    let (run, calls, answers, ends) = with_rooms(&question, 3, 5, 3);
    assert_eq!(run, Ok(Run { ends: 2, calls: 2, answers: 4, rounds: 4 }));
    assert_eq!(ends, [1, 3, MARK]);
    assert_eq!(calls[6..], [0; 3]);
    assert_eq!(answers[80..], [0; 20]);
    for (calls, answers) in [(1, 4), (2, 3), (0, 4)] {
        let (run, c, a, e) = with_rooms(&question, calls, answers, 3);
        assert_eq!(run, Err(Unrun { refusal: Refusal::TablesFull, run: Run::default() }));
        assert!(c.iter().chain(&a).all(|&w| w == 0));
        assert_eq!(e, [MARK; 3]);
    }
}

#[test]
fn short_list_keeps_tables_and_counts() {
    let rules = left_recursion();
    let question = Question { fluents: 2, actions: 1, rules: &rules, goal: &[768], start: 0 };
    let (run, calls, answers, ends) = with_rooms(&question, 2, 4, 1);
    let counts = Run { ends: 2, calls: 2, answers: 4, rounds: 4 };
    assert_eq!(run, Err(Unrun { refusal: Refusal::ListShort, run: counts }));
    assert_eq!(ends, [MARK]);
    let (_, c, a, _) = with_rooms(&question, 2, 4, 2);
    assert_eq!((calls, answers), (c, a));
}

/// The numbers of the call records by action and then state, the goal last, and 0 past them; also with 31.
#[test]
fn list_of_calls() {
    let mut rules = [0; 36];
    let sheet = read(EXAMPLE, &mut rules).unwrap();
    let (run, calls, _, _, list) = with_list(&sheet.question(&rules), [4, 4, 1, 5]);
    assert_eq!(run, Ok(Run { ends: 1, calls: 3, answers: 3, rounds: 5 }));
    assert_eq!(calls, [64, 0, 0, 1, 0, 1, 0, 0, 2, 0, 0, 0]);
    assert_eq!(list, [2, 1, 0, 0, 0]);
    let rules = left_recursion();
    let question = Question { fluents: 2, actions: 1, rules: &rules, goal: &[768], start: 0 };
    let (run, calls, _, _, list) = with_list(&question, [2, 4, 2, 4]);
    assert!(run.is_ok());
    assert_eq!((calls, list), (vec![64, 0, 0, 0, 0, 1], vec![1, 0, 0, 0]));
    let (run, _, _, ends, list) = with_list(&question, [3, 4, 1, 3]);
    assert_eq!(run.unwrap_err().refusal, Refusal::ListShort);
    assert_eq!((ends, list), (vec![MARK], vec![1, 0, 0]));
}

/// A list of calls that is too short: 34, before 30 and after 24, and every buffer as it was lent; with 30 it is wholly 0.
#[test]
fn short_list_of_calls() {
    let rules = left_recursion();
    let question = Question { fluents: 2, actions: 1, rules: &rules, goal: &[768], start: 0 };
    let short = Err(Unrun { refusal: Refusal::CallListShort, run: Run::default() });
    let high = Err(Unrun { refusal: Refusal::BadStart, run: Run::default() });
    for (start, rooms, told) in [
        (0, [2, 4, 2, 1], short),
        (0, [8, 8, 8, 7], short),
        (0, [2, 4, 1, 1], short),
        (0, [2, 3, 2, 1], short),
        (0, [1, 4, 2, 0], short),
        (4, [2, 4, 2, 1], high),
    ] {
        let (run, c, a, e, l) = with_list(&Question { start, ..question }, rooms);
        assert_eq!(run, told);
        assert!([c, a, e, l].concat().iter().all(|&word| word == MARK));
    }
    let (run, c, a, e, l) = with_list(&question, [2, 3, 2, 4]);
    assert_eq!(run.unwrap_err().refusal, Refusal::TablesFull);
    assert!([c, a, l].concat().iter().all(|&word| word == 0));
    assert_eq!(e, [MARK; 2]);
}

/// Calls found by halves, in tables and lists that came from anybody.
#[test]
fn calls_found() {
    let words = [64, 0, 0, 0, 0, 1, 0, 1, 2, 1, 0, 2];
    let calls = |count, list| Calls { words: &words, count, list };
    let listed = calls(4, &[1, 2, 3, 0]);
    assert_eq!([(0, 0), (0, 1), (1, 0), (64, 0)].map(|(a, s)| listed.find(a, s)), [1, 2, 3, 0].map(|row| Ok(Some(row))));
    for (action, state) in [(64, 1), (0, 2), (u64::MAX, u64::MAX)] {
        assert_eq!(listed.find(action, state), Ok(None));
    }
    assert_eq!(calls(0, &[]).find(64, 0), Ok(None));
    assert_eq!(calls(4, &[1, 2, 3, 0, MARK]).find(0, 1), Ok(Some(2)));
    assert_eq!(calls(5, &[]).find(0, 1), Err(Refusal::BadRecordCount));
    assert_eq!(calls(5, &[1, 2, 3, 0, 0]).find(0, 1), Err(Refusal::BadRecordCount));
    assert_eq!(calls(4, &[1, 2, 3]).find(0, 1), Err(Refusal::BadCallList));
    // The place with half of the places before it is read first.
    assert_eq!(calls(4, &[1, 2, 4, 0]).find(0, 1), Err(Refusal::BadCallList));
    assert_eq!(calls(4, &[9, 2, 3, 0]).find(64, 0), Ok(Some(0)));
    assert_eq!(calls(4, &[9, 2, 3, 0]).find(0, 0), Err(Refusal::BadCallList));
    assert_eq!(calls(4, &[3, 2, 1, 0]).find(0, 0), Ok(Some(1)));
    assert_eq!(
        calls(4, &[]).find(0, 0).unwrap_err().to_string(),
        "refused 35: a list of calls that is short, or has a number of no call"
    );
}

/// A class lends the list to each start: the last one's is left, and a short one is told of each start but one refused before it.
#[test]
fn list_of_a_class() {
    let rules = left_recursion();
    let question = Question { fluents: 2, actions: 1, rules: &rules, goal: &[768], start: 0 };
    let run = |places: usize| {
        let [mut results, mut calls, mut answers, mut ends, mut list] = [8, 9, 100, 4, places].map(|words| vec![MARK; words]);
        let mut lent = Buffers { calls: &mut calls, answers: &mut answers, ends: &mut ends, list: &mut list };
        assert_eq!(class(&question, &[4, 2], &mut results, &mut lent), Ok(()));
        (results, [calls, answers, ends].concat(), list)
    };
    let (results, _, list) = run(4);
    assert_eq!((results, list), (vec![24, 0, 0, 0, 0, 1, 2, 2], vec![1, 0, 0, 0]));
    let (results, others, list) = run(2);
    assert_eq!(results, [24, 0, 0, 0, 34, 0, 0, 0]);
    assert!([others, list].concat().iter().all(|&word| word == MARK));
}

#[test]
fn refused_questions_leave_the_buffers() {
    let rules = left_recursion();
    let asked = Question { fluents: 2, actions: 1, rules: &rules, goal: &[768], start: 0 };
    let cases = [
        (Question { fluents: MOST_FLUENTS + 1, ..asked }, Refusal::BadCounts),
        (Question { actions: MOST_ACTIONS + 1, ..asked }, Refusal::BadCounts),
        (Question { rules: &rules[..35], ..asked }, Refusal::BadLength),
        (Question { actions: 0, ..asked }, Refusal::BadRule),
        (Question { goal: &[769], ..asked }, Refusal::BadGoal),
        (Question { start: 4, ..asked }, Refusal::BadStart),
    ];
    for (question, refusal) in cases {
        let (run, c, a, e) = with_rooms(&question, 4, 4, 4);
        assert_eq!(run, Err(Unrun { refusal, run: Run::default() }));
        assert!(c.iter().chain(&a).chain(&e).all(|&w| w == MARK));
    }
}

/// The step `~` goes on where the fluent does not hold, and nowhere else.
#[test]
fn denial() {
    let sheet = read(b"fluent\ta\nfluent\tb\nstart\ngoal\t~b\t?a\n", &mut []).unwrap();
    assert_eq!(sheet.goal(), [1025, 0]);
    let refused = read(b"action\tg\nstart\ngoal\t~g\n", &mut []).unwrap_err();
    assert_eq!(refused, Unread { refusal: Refusal::Undefined, line: 3 });
    let asked = Question { fluents: 2, actions: 0, rules: &[], goal: &[1025], start: 1 };
    let (run, _, _, ends) = with_rooms(&asked, 2, 2, 2);
    assert_eq!((run, ends), (Ok(Run { ends: 1, calls: 1, answers: 1, rounds: 1 }), vec![1, MARK]));
    let (run, ..) = with_rooms(&Question { start: 2, ..asked }, 2, 2, 2);
    assert_eq!(run, Ok(Run { ends: 0, calls: 1, answers: 0, rounds: 0 }));
    for goal in [[1026], [1280]] {
        let (run, ..) = with_rooms(&Question { goal: &goal, ..asked }, 2, 2, 2);
        assert_eq!(run.unwrap_err().refusal, Refusal::BadGoal);
    }
}

#[test]
fn numbers_of_refusals() {
    let numbers = [
        10, 11, 12, 13, 14, 15, 16, 17, 18, 19, 20, 21, 22, 23, 24, 25, 26, 27, 30, 31, 34, 35, 40, 41, 42, 43, 50, 60, 61, 62,
        70, 80, 81, 82, 90, 91,
    ];
    assert!(Refusal::ALL.iter().map(|refusal| refusal.number()).eq(numbers));
    assert!(numbers.iter().map(|&number| Refusal::of(number)).eq(Refusal::ALL.iter().copied().map(Some)));
    assert!([0, 9, 28, 29, 32, 33, 36, 39, 44, 59, 63, 79, 83, 89, 92].map(Refusal::of).iter().all(Option::is_none));
}

/// What a host prints of an error that it handed on by `?`.
#[test]
fn refusals_are_errors() {
    fn asked(text: &[u8], places: usize) -> Result<Run, Box<dyn Error>> {
        let mut rules = [0; 36];
        let sheet = read(text, &mut rules)?;
        let (run, ..) = with_rooms(&sheet.question(&rules), 8, 8, places);
        Ok(run?)
    }
    fn merged(first: &[u8], second: &[u8], room: usize) -> Result<usize, Box<dyn Error>> {
        Ok(merge(first, second, &mut vec![0; room])?)
    }
    let said = |result: Result<_, Box<dyn Error>>| result.unwrap_err().to_string();
    assert_eq!(asked(EXAMPLE, 1).unwrap(), Run { ends: 1, calls: 3, answers: 3, rounds: 5 });
    assert_eq!(said(asked(EXAMPLE, 0).map(drop)), "refused 31: the list has fewer places than there are ends, 1 in all");
    assert_eq!(said(asked(b"\n", 0).map(drop)), "refused 13: no record word, or one out of order, line 1");
    assert_eq!(said(asked(b"", 0).map(drop)), "refused 18: no start or no goal");
    assert_eq!(
        said(merged(b"start\ngoal\n", b"\n", 0).map(drop)),
        "refused 13: no record word, or one out of order, sheet 2, line 1"
    );
    assert_eq!(said(merged(b"", b"", 0).map(drop)), "refused 18: no start or no goal, sheet 1");
    assert_eq!(said(merged(b"start\ngoal\n", b"start\ngoal\n", 0).map(drop)), "refused 50: fewer bytes lent than the text has");
}

#[test]
fn empty_slices() {
    assert_eq!(fluent_name(&[], 0), b"");
    let question = Question { fluents: 0, actions: 0, rules: &[], goal: &[], start: 0 };
    let (run, ..) = with_rooms(&question, 1, 1, 1);
    assert_eq!(run, Ok(Run { ends: 1, calls: 1, answers: 1, rounds: 1 }));
    assert_eq!(with_rooms(&question, 0, 0, 0).0.unwrap_err().refusal, Refusal::TablesFull);
}

#[test]
fn path_of_the_goals_answer() {
    let mut rules = [0; 36];
    let sheet = read(EXAMPLE, &mut rules).unwrap();
    let question = sheet.question(&rules);
    let (run, calls, answers, _) = with_rooms(&question, 8, 8, 8);
    let run = run.unwrap();
    let records = Records { calls: &calls, call_count: run.calls, answers: &answers, answer_count: run.answers };
    let goal = (0..run.answers).find(|x| calls[CALL_WORDS * answers[ANSWER_WORDS * x] as usize] == 64).unwrap();
    let mut states = [MARK; 5];
    assert_eq!(path(&question, &records, goal, &mut states), Ok(4));
    assert_eq!(states, [0, 1, 3, 2, MARK]);
    states = [MARK; 5];
    let bad_goal = Question { goal: &[770], ..question };
    assert_eq!(path(&Question { fluents: 65, ..question }, &records, goal, &mut states), Err(Refusal::BadCounts));
    assert_eq!(path(&Question { rules: &rules[..35], ..question }, &records, goal, &mut states), Err(Refusal::BadLength));
    assert_eq!(path(&Question { actions: 1, ..question }, &records, goal, &mut states), Err(Refusal::BadRule));
    assert_eq!(path(&bad_goal, &records, goal, &mut states), Err(Refusal::BadGoal));
    assert_eq!(path(&question, &records, goal, &mut states[..3]), Err(Refusal::StatesShort));
    assert_eq!(path(&question, &records, 3, &mut states), Err(Refusal::NoRecord));
    assert_eq!(path(&question, &Records { call_count: 9, ..records }, goal, &mut states), Err(Refusal::BadRecordCount));
    assert_eq!(path(&question, &Records { call_count: 0, ..records }, goal, &mut states), Err(Refusal::BadRecord));
    assert_eq!(states, [MARK; 5]);
}

/// Drill D2's tables with the round of each record, and the rounds that the path refuses.
#[test]
fn rounds_of_records() {
    let rules = left_recursion();
    let question = Question { fluents: 2, actions: 1, rules: &rules, goal: &[768], start: 0 };
    let (run, mut calls, mut answers, _) = with_rooms(&question, 2, 4, 2);
    assert_eq!(run.unwrap().rounds, 4);
    assert_eq!(calls, [64, 0, 0, 0, 0, 1]);
    let records: Vec<&[u64]> = answers.chunks(ANSWER_WORDS).collect();
    assert!(records.iter().map(|r| &r[..4]).eq([[1, 1, 1, 0], [0, 1, 256, 0], [1, 3, 0, 0], [0, 3, 256, 2]]));
    assert!(records.iter().map(|r| r[19]).eq([2, 3, 3, 4]));
    let shown = |calls: &[u64], answers: &[u64]| {
        path(&question, &Records { calls, call_count: 2, answers, answer_count: 4 }, 3, &mut [MARK; 4])
    };
    (calls[2], answers[79]) = (MOST_CALL_ROUND, u64::MAX);
    assert!(shown(&calls, &answers).is_ok());
    calls[2] = MOST_CALL_ROUND + 1;
    assert_eq!(shown(&calls, &answers), Err(Refusal::BadRecord));
    (calls[2], answers[59]) = (0, answers[19]);
    assert_eq!(shown(&calls, &answers), Err(Refusal::BadRecord));
}

/// How many rounds drills D3, D7, D8 and D9 take.
#[test]
fn rounds_of_drills() {
    type Rules = &'static [&'static [u16]];
    let drills: [(Rules, &[u16], usize); 4] = [
        (&[&[0, 1, 768]], &[768], 1),
        (&[&[0, 1, 256]], &[768, 1], 2),
        (&[&[0, 2, 256, 768], &[0, 1, 0]], &[768], 5),
        (&[&[0, 2, 256, 512], &[1, 2, 768, 768]], &[769], 5),
    ];
    for (given, goal, rounds) in drills {
        let mut rules = vec![0; 18 * given.len()];
        given.iter().zip(rules.chunks_mut(18)).for_each(|(words, rule)| rule[..words.len()].copy_from_slice(words));
        let (run, ..) = with_rooms(&Question { fluents: 2, actions: 2, rules: &rules, goal, start: 0 }, 8, 8, 8);
        assert_eq!(run.unwrap().rounds, rounds);
    }
}

/// Drill D5: an insert of what holds is an update too, so its path has two states.
#[test]
fn path_of_an_idle_update() {
    let question = Question { fluents: 2, actions: 0, rules: &[], goal: &[256], start: 1 };
    let (run, calls, answers, _) = with_rooms(&question, 1, 1, 1);
    assert_eq!(run, Ok(Run { ends: 1, calls: 1, answers: 1, rounds: 1 }));
    let records = Records { calls: &calls, call_count: 1, answers: &answers, answer_count: 1 };
    let mut states = [MARK; 3];
    assert_eq!(path(&question, &records, 0, &mut states[..1]), Err(Refusal::StatesShort));
    assert_eq!(states, [MARK; 3]);
    assert_eq!(path(&question, &records, 0, &mut states), Ok(2));
    assert_eq!(states, [1, 1, MARK]);
}

/// Drill D9: p: +a -a; q: !p !p; goal !q, with a second fluent. Its path, which is kept by fluent and taken back.
#[test]
fn path_kept_by_fluent() {
    let mut rules = [0; 36];
    rules[..4].copy_from_slice(&[0, 2, 256, 512]);
    rules[18..22].copy_from_slice(&[1, 2, 768, 768]);
    let question = Question { fluents: 2, actions: 2, rules: &rules, goal: &[769], start: 0 };
    let (run, calls, answers, _) = with_rooms(&question, 8, 8, 8);
    let run = run.unwrap();
    let records = Records { calls: &calls, call_count: run.calls, answers: &answers, answer_count: run.answers };
    let goal = (0..run.answers).find(|x| calls[CALL_WORDS * answers[ANSWER_WORDS * x] as usize] == 64).unwrap();
    let mut states = [MARK; 6];
    let count = path(&question, &records, goal, &mut states).unwrap();
    assert_eq!(states, [0, 1, 0, 1, 0, MARK]);
    let mut words = [MARK; 3];
    assert_eq!(store(2, &states[..count], &mut words), Ok(2));
    assert_eq!(words, [0b01010, 0, MARK]);
    let mut back = [MARK; 6];
    assert_eq!(restore(2, 5, &words[..2], &mut back), Ok(5));
    assert_eq!(back, states);
}

#[test]
fn blocks_by_fluent_both_ways() {
    let states: Vec<u64> = (0..130).map(|i| i * i / 3 % 8).collect();
    let mut words = [MARK; 10];
    assert_eq!(store(3, &states, &mut words), Ok(9));
    assert_eq!(words[9], MARK);
    for (i, state) in states.iter().enumerate() {
        for k in 0..3 {
            assert_eq!(words[i / 64 * 3 + k] >> (i % 64) & 1, state >> k & 1);
        }
    }
    assert!(words[6..9].iter().all(|w| w >> 2 == 0));
    let mut back = [MARK; 131];
    assert_eq!(restore(3, 130, &words[..9], &mut back), Ok(130));
    assert_eq!((&back[..130], back[130]), (&states[..], MARK));
    let mut again = [MARK; 9];
    assert_eq!(store(3, &back[..130], &mut again), Ok(9));
    assert_eq!(again, words[..9]);
}

#[test]
fn refused_stores_leave_the_output() {
    let mut out = [MARK; 3];
    assert_eq!(store(65, &[0], &mut out), Err(Refusal::BadCounts));
    assert_eq!(store(1, &[2], &mut out[..0]), Err(Refusal::BadStart));
    assert_eq!(store(2, &[0], &mut out[..1]), Err(Refusal::OutputShort));
    assert_eq!(restore(65, 1, &[], &mut out), Err(Refusal::BadCounts));
    assert_eq!(restore(2, 1, &[0], &mut out), Err(Refusal::BadWordCount));
    assert_eq!(restore(64, u64::MAX, &[], &mut out), Err(Refusal::BadWordCount));
    assert_eq!(restore(2, 1, &[2, 0], &mut out[..0]), Err(Refusal::BitPastEnd));
    assert_eq!(restore(2, 4, &[6, 12], &mut out), Err(Refusal::OutputShort));
    assert_eq!(restore(0, u64::MAX, &[], &mut out), Err(Refusal::OutputShort));
    assert_eq!(out, [MARK; 3]);
    assert_eq!((store(0, &[0; 3], &mut []), restore(0, 3, &[], &mut out)), (Ok(0), Ok(3)));
    assert_eq!(out, [0; 3]);
}

/// Drill D2's goal from some starts in rooms of 8 and 8, over marked buffers: what each start is told, result words, tables and list.
#[allow(clippy::type_complexity)]
fn class_of(starts: &[u64], words: usize, list: usize) -> (Result<(), Refusal>, Vec<u64>, Vec<u64>, Vec<u64>, Vec<u64>) {
    let rules = left_recursion();
    let question = Question { fluents: 2, actions: 1, rules: &rules, goal: &[768], start: 0 };
    let [mut results, mut calls, mut answers, mut ends] = [words, 24, 160, list].map(|words| vec![MARK; words]);
    let mut lent = Buffers { calls: &mut calls, answers: &mut answers, ends: &mut ends, list: &mut [MARK; 8] };
    let told = class(&question, starts, &mut results, &mut lent);
    (told, results, calls, answers, ends)
}

#[test]
fn class_in_turn() {
    let (told, results, calls, answers, ends) = class_of(&[0, 2, 4, 1], 17, 4);
    assert_eq!(told, Ok(()));
    assert_eq!(results, [0, 2, 2, 4, 0, 1, 2, 2, 24, 0, 0, 0, 31, 2, 2, 4, MARK]);
    assert_eq!(ends, [1, 3, 3, MARK]);
    let outcomes: Vec<_> = outcomes(&results[..16], &ends).collect();
    assert_eq!(outcomes[0].told, Ok(Counts { ends: 2, calls: 2, answers: 4 }));
    assert_eq!((outcomes[0].ends, outcomes[1].ends, outcomes[3].ends), (&[1, 3][..], &[3][..], &[][..]));
    assert_eq!(outcomes[2].told, Err(Uncounted { refusal: Refusal::BadStart, counts: Counts::default() }));
    assert_eq!(
        outcomes[3].told,
        Err(Uncounted { refusal: Refusal::ListShort, counts: Counts { ends: 2, calls: 2, answers: 4 } })
    );
    // The tables are those of start 1, as a single call leaves them.
    let rules = left_recursion();
    let last = Question { fluents: 2, actions: 1, rules: &rules, goal: &[768], start: 1 };
    let (_, same_calls, same_answers, _) = with_rooms(&last, 8, 8, 1);
    assert_eq!((calls, answers), (same_calls, same_answers));
}

/// Each start is told what a single call tells, and the tables go on from start to start.
#[test]
fn class_as_single_calls() {
    let rules = left_recursion();
    let starts: Vec<u64> = (0..1024).map(|i| i % 5).collect();
    let (told, results, calls, answers, ends) = class_of(&starts, 4096, 700);
    assert_eq!(told, Ok(()));
    let (mut c, mut a, mut e, mut l) = (vec![MARK; 24], vec![MARK; 160], vec![MARK; 700], [MARK; 8]);
    let mut used = 0;
    for (start, outcome) in starts.iter().zip(outcomes(&results, &ends)) {
        let question = Question { fluents: 2, actions: 1, rules: &rules, goal: &[768], start: *start };
        let mut lent = Buffers { calls: &mut c, answers: &mut a, ends: &mut e[used..], list: &mut l };
        let told = evaluate(&question, &mut lent);
        let counts = |run: Run| Counts { ends: run.ends, calls: run.calls, answers: run.answers };
        let single = told.map(counts).map_err(|refused| Uncounted { refusal: refused.refusal, counts: counts(refused.run) });
        assert_eq!(outcome.told, single);
        let places = told.map_or(0, |run| run.ends);
        assert_eq!(outcome.ends, &e[used..used + places]);
        used += places;
    }
    assert_eq!((c, a, e), (calls, answers, ends));
}

#[test]
fn refused_class_leaves_the_buffers() {
    for (starts, words) in [(&vec![0; 1025], 4100), (&vec![0], 3), (&vec![4, 4], 7)] {
        let (told, results, calls, answers, ends) = class_of(starts, words, 4);
        assert_eq!(told, Err(Refusal::BadClass));
        assert!([results, calls, answers, ends].concat().iter().all(|&word| word == MARK));
    }
    let (told, results, calls, answers, ends) = class_of(&[], 1, 1);
    assert_eq!(told, Ok(()));
    assert!([results, calls, answers, ends].concat().iter().all(|&word| word == MARK));
}

fn over(numerator: u64, denominator: u64) -> Fraction {
    Fraction { numerator, denominator }
}

#[test]
fn figures_of_a_class() {
    let mut out = [MARK; 9];
    let figures = report(2, &[0, 2, 2, 4, 31, 5, 5, 5, 0, 1, 1, 1], &[1, 3, 1], &mut out).unwrap();
    assert_eq!(figures.shares().collect::<Vec<_>>(), [over(1, 1), over(1, 3)]);
    assert_eq!((figures.mean_held(), figures.mean_ends()), (over(4, 3), over(3, 2)));
    assert_eq!(out, [1, 1, 1, 3, 4, 3, 3, 2, MARK]);
    let figures = report(2, &[], &[], &mut out).unwrap();
    let all: Vec<Fraction> = figures.shares().chain([figures.mean_held(), figures.mean_ends()]).collect();
    assert!(all == [Fraction::NOTHING; 4] && Fraction::NOTHING.value().is_none());
    assert_eq!(out, [0, 0, 0, 0, 0, 0, 0, 0, MARK]);
    let figures = report(1, &[0, 0, 2, 0], &[], &mut out).unwrap();
    assert_eq!((figures.mean_held(), figures.mean_ends()), (Fraction::NOTHING, over(0, 1)));
    let mut wide = [MARK; report_words(64)];
    let figures = report(64, &[0, 1, 1, 1], &[u64::MAX], &mut wide).unwrap();
    assert!(figures.shares().all(|share| share == over(1, 1)) && figures.shares().count() == 64);
    assert_eq!((figures.mean_held(), figures.mean_ends().value()), (over(64, 1), Some(1.0)));
}

/// The results and the ends of a class as they come, and what `report_of` makes of them.
#[test]
fn figures_of_a_class_as_it_comes() {
    let (told, results, _, _, ends) = class_of(&[0, 2, 4, 1], 17, 4);
    assert_eq!(told, Ok(()));
    let mut out = [MARK; 8];
    let figures = report(2, &results[..16], &ends[..3], &mut out).unwrap();
    let made = Report { shares: figures.shares().collect(), mean_held: figures.mean_held(), mean_ends: figures.mean_ends() };
    assert_eq!(out, [1, 1, 2, 3, 5, 3, 3, 2]);
    let given: Vec<OfStart> = outcomes(&results[..16], &ends).map(|start| (start.told, start.ends.to_vec())).collect();
    assert_eq!(report_of(2, &given), Ok(made));
    assert_eq!([65, usize::MAX].map(|fluents| report_of(fluents, &given)), [Err(Refusal::BadCounts), Err(Refusal::BadCounts)]);
}

#[test]
fn refused_reports_leave_the_output() {
    let mut out = [MARK; 6];
    assert_eq!(report(65, &[0], &[1], &mut out), Err(Refusal::BadCounts));
    assert_eq!(report(1, &[0; 5], &[], &mut out), Err(Refusal::BadResults));
    assert_eq!(report(1, &[0, 1, 1, 1], &[], &mut out), Err(Refusal::BadResults));
    assert_eq!(report(1, &[0, u64::MAX, 0, 0, 0, 1, 0, 0], &[], &mut out), Err(Refusal::BadResults));
    assert_eq!(report(1, &[0; 4100], &[], &mut out), Err(Refusal::BadResults));
    assert_eq!(report(1, &[0, 65537, 0, 0], &[0; 65537], &mut out), Err(Refusal::BadResults));
    assert_eq!(report(1, &[0, 1, 1, 1], &[2], &mut out[..0]), Err(Refusal::BadResults));
    assert_eq!(report(1, &[0, 1, 1, 1], &[1], &mut out[..5]), Err(Refusal::ReportShort));
    assert_eq!(out, [MARK; 6]);
    assert!(report(1, &[0, 65536, 0, 0], &[0; 65536], &mut out).is_ok());
    assert_eq!(out, [0, 1, 0, 1, 65536, 1]);
    assert!(report(1, &[0; 4096], &[], &mut out).is_ok());
    assert_eq!(out, [0, 0, 0, 0, 0, 1]);
}

/// Drill D2's book: records that are its goal's and records that are not, in a table with one word more.
#[test]
fn records_marked() {
    let rules = left_recursion();
    let question = Question { fluents: 2, actions: 1, rules: &rules, goal: &[768], start: 0 };
    let cases: [(&[u16], bool, u64); 6] = [
        (&[256], true, 0b10),
        (&[256, 0, 257], true, 0b1010),
        (&[256, 0, 257, 0, 257], true, 0b10_1010),
        (&[256, 0], false, 0b10),
        (&[256, 1], false, 0b10),
        (&[], false, 0),
    ];
    for (recorded, yes, word) in cases {
        let mut table = [MARK; MARK_WORDS + 1];
        assert_eq!(mark(&question, recorded, &mut table), Ok(yes), "{recorded:?}");
        assert_eq!((table[0], table[MARK_WORDS]), (word, MARK));
        assert!(table[1..MARK_WORDS].iter().all(|&word| word == 0));
    }
}

#[test]
fn refused_marks_leave_the_table() {
    let mut rules = [0; 36];
    rules[..4].copy_from_slice(&[0, 2, 256, 768]);
    let question = |actions| Question { fluents: 2, actions, rules: &rules, goal: &[768], start: 0 };
    let mut table = [MARK; MARK_WORDS];
    assert_eq!(mark(&question(65), &[256; 64], &mut []), Err(Refusal::BadCounts));
    assert_eq!(mark(&question(0), &[256; 64], &mut []), Err(Refusal::BadRule));
    assert_eq!(mark(&Question { start: 4, ..question(1) }, &[768; 64], &mut table), Err(Refusal::BadStart));
    assert_eq!(mark(&question(1), &[768; 64], &mut table[1..]), Err(Refusal::LongRecord));
    assert_eq!(mark(&question(1), &[768], &mut table[1..]), Err(Refusal::MarksShort));
    for bad in [768, 258, 1280] {
        assert_eq!(mark(&question(1), &[256, bad], &mut table), Err(Refusal::BadRecordedStep));
    }
    assert_eq!(table, [MARK; MARK_WORDS]);
    assert_eq!(mark(&question(1), &[256; MOST_RECORDED], &mut table), Ok(true));
    assert_eq!((table[0], table[63]), (u64::MAX, 1 << 63));
}
