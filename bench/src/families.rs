//! Families of books that grow with a size. Each has four sizes. The last is the largest whose calls and answers each fit 65,536
//! records, or the largest that can be written with 64 fluents, 256 rules and 16 steps in a body.

use crate::book::{Book, CALL, DELETE, DENY, INSERT, QUERY};

pub struct Family {
    pub name: &'static str,
    pub sizes: [u16; 4],
    pub book: fn(u16) -> Book,
}

pub const FAMILIES: [Family; 15] = [
    Family { name: "sixteen", sizes: [2, 4, 8, 16], book: sixteen },
    Family { name: "counter", sizes: [8, 10, 12, 14], book: counter },
    Family { name: "subsets", sizes: [9, 11, 13, 15], book: subsets },
    Family { name: "supersets", sizes: [4, 6, 8, 10], book: supersets },
    Family { name: "choices", sizes: [8, 10, 12, 14], book: choices },
    Family { name: "consuming", sizes: [16, 19, 22, 25], book: consuming },
    Family { name: "blocks", sizes: [3, 4, 5, 6], book: blocks },
    Family { name: "left", sizes: [8, 10, 12, 14], book: left },
    Family { name: "noop-left", sizes: [8, 10, 12, 14], book: noop_left },
    Family { name: "left-noop", sizes: [8, 10, 12, 14], book: left_noop },
    Family { name: "mid-noop", sizes: [8, 10, 12, 14], book: mid_noop },
    Family { name: "double", sizes: [5, 6, 7, 8], book: double },
    Family { name: "planner", sizes: [3, 4, 5, 6], book: planner },
    Family { name: "cpath", sizes: [24, 27, 30, 33], book: cpath },
    Family { name: "hub", sizes: [9, 11, 13, 15], book: hub },
];

/// A body of 16 calls, each with 16 answers: g goes to any of 16 states. There are 16 to the power 16 ways through the goal. The
/// size is the number of calls.
fn sixteen(n: u16) -> Book {
    let mut book = Book::new(4, 1, 0);
    for to in 0..16u16 {
        let set = |i: u16| if to >> i & 1 == 1 { INSERT + i } else { DELETE + i };
        book.rule(0, &[set(0), set(1), set(2), set(3)]);
    }
    book.goal(&vec![CALL; usize::from(n)])
}

/// Deep recursion: a counter of n bits runs from 0 to all ones, one call deeper for each number. Fluent i: bit i is one. Action 0
/// runs on, action 1 + i adds at bit i.
fn counter(n: u16) -> Book {
    let mut book = Book::new(n, n + 1, 0);
    book.rule(0, &[CALL + 1, CALL]);
    let ones: Vec<u16> = (0..n).map(|i| QUERY + i).collect();
    book.rule(0, &ones);
    for i in 0..n {
        book.rule(1 + i, &[DENY + i, INSERT + i]);
        if i + 1 < n {
            book.rule(1 + i, &[QUERY + i, DELETE + i, CALL + 2 + i]);
        }
    }
    book.goal(&[CALL])
}

/// Many answers of one call: g calls itself first and adds any one of n fluents, so that it ends in every subset.
fn subsets(n: u16) -> Book {
    let mut book = Book::new(n, 1, 0);
    book.rule(0, &[]);
    for i in 0..n {
        book.rule(0, &[CALL, INSERT + i]);
    }
    book.goal(&[CALL])
}

/// Many answers of many calls: g adds any one of n fluents and calls itself last, so that from each subset it ends in all that
/// contain it.
fn supersets(n: u16) -> Book {
    let mut book = Book::new(n, 1, 0);
    book.rule(0, &[]);
    for i in 0..n {
        book.rule(0, &[DENY + i, INSERT + i, CALL]);
    }
    book.goal(&[CALL])
}

/// Many calls and many ends: the goal calls n actions in a row, and each adds its fluent or not.
fn choices(n: u16) -> Book {
    let mut book = Book::new(n, n, 0);
    let calls = choose(&mut book, 0, n);
    book.goal(&calls)
}

/// Rules of n actions from `first` on: each adds its fluent or not. A body that calls them all in a row.
fn choose(book: &mut Book, first: u16, n: u16) -> Vec<u16> {
    for i in 0..n {
        book.rule(first + i, &[INSERT + i]);
        book.rule(first + i, &[]);
    }
    (first..first + n).map(|action| CALL + action).collect()
}

/// The edges of a ring of n nodes with a chord from every second node.
fn ring(n: u16) -> impl Iterator<Item = (u16, u16)> {
    (0..n).map(move |i| (i, (i + 1) % n)).chain((0..n / 2).map(move |i| (2 * i, (2 * i + 3) % n)))
}

/// Consuming paths, by a walk that calls itself last: it goes over the edges of a ring with chords and uses each edge up.
/// Fluents: the n nodes, of which one is the walk's place, then the edges. Action 0 walks on, or stops.
fn consuming(n: u16) -> Book {
    let edges = ring(n).count() as u16;
    let start = 1 | ((1 << edges) - 1) << n;
    let mut book = Book::new(n + edges, 1, start);
    book.rule(0, &[]);
    for ((from, to), edge) in ring(n).zip(n..) {
        book.rule(0, &[QUERY + from, QUERY + edge, DELETE + from, DELETE + edge, INSERT + to, CALL]);
    }
    book.goal(&[CALL])
}

/// Consuming paths, by rules that call others first: node y is come to from node 0 if some z is and the edge from z to y is left,
/// which is used up. Fluents: the edges. Action y comes to node y, action n to any node.
fn cpath(n: u16) -> Book {
    let edges = ring(n).count() as u16;
    let mut book = Book::new(edges, n + 1, (1 << edges) - 1);
    book.rule(0, &[]);
    for ((z, y), edge) in ring(n).zip(0..) {
        book.rule(y, &[CALL + z, QUERY + edge, DELETE + edge]);
    }
    for y in 0..n {
        book.rule(n, &[CALL + y]);
    }
    book.goal(&[CALL + n])
}

/// The fluents of a world of n blocks and a table: block i is clear.
fn clear(i: u16) -> u16 {
    i
}

/// Block i is on place j: another block, or n for the table.
fn on(n: u16, i: u16, j: u16) -> u16 {
    n + i * (n + 1) + j
}

/// A book without rules that starts with one tower, block 0 at its foot.
fn tower(n: u16, actions: u16) -> Book {
    let start = (1..n).fold(1 << clear(n - 1) | 1 << on(n, 0, n), |state, i| state | 1 << on(n, i, i - 1));
    Book::new(n + n * (n + 1), actions, start)
}

/// The steps of every move of one block.
fn moves(n: u16) -> Vec<Vec<u16>> {
    let mut all = Vec::new();
    for i in 0..n {
        for from in (0..=n).filter(|&j| j != i) {
            for to in (0..=n).filter(|&j| j != i && j != from) {
                let mut steps = vec![QUERY + clear(i), QUERY + on(n, i, from)];
                if to < n {
                    steps.extend([QUERY + clear(to), DELETE + clear(to)]);
                }
                steps.extend([DELETE + on(n, i, from), INSERT + on(n, i, to)]);
                if from < n {
                    steps.push(INSERT + clear(from));
                }
                all.push(steps);
            }
        }
    }
    all
}

/// Blocks world: n blocks are moved one at a time until every block lies on the table. Action 0 moves one and calls itself last,
/// or stops when all blocks are clear.
fn blocks(n: u16) -> Book {
    let mut book = tower(n, 1);
    let all: Vec<u16> = (0..n).map(|i| QUERY + clear(i)).collect();
    book.rule(0, &all);
    for mut steps in moves(n) {
        steps.push(CALL);
        book.rule(0, &steps);
    }
    book.goal(&[CALL])
}

/// A planner in the blocks world: a plan is nothing, or a plan and then a move. The goal asks for a plan that turns the tower
/// over.
fn planner(n: u16) -> Book {
    let mut book = tower(n, 2);
    book.rule(0, &[]);
    book.rule(0, &[CALL, CALL + 1]);
    for steps in moves(n) {
        book.rule(1, &steps);
    }
    let mut goal = vec![CALL];
    goal.extend((1..n).map(|i| QUERY + on(n, i - 1, i)));
    book.goal(&goal)
}

/// The bits from `low` up to `high` are ones and become zeros.
fn carry(low: u16, high: u16) -> Vec<u16> {
    (low..high).flat_map(|i| [QUERY + i, DELETE + i]).collect()
}

/// One is added at bit i to a number whose bits begin at `low`.
fn add(low: u16, i: u16) -> Vec<u16> {
    [carry(low, i), vec![DENY + i, INSERT + i]].concat()
}

const REACH: u16 = CALL;
const NOOP: u16 = CALL + 1;
const INC: u16 = CALL + 2;

/// Numbers of n bits: action `inc` adds one, four bits at a time, and an action of its own for each further four; `noop` does
/// nothing; `reach` does nothing or goes by one of the bodies given, so that it comes to every number.
fn numbers(n: u16, bodies: &[&[u16]], goal: &[u16]) -> Book {
    let mut book = Book::new(n, 2 + n.div_ceil(4), 0);
    book.rule(0, &[]);
    for body in bodies {
        book.rule(0, body);
    }
    book.rule(1, &[]);
    for (low, inc) in (0..n).step_by(4).zip(2..) {
        let high = n.min(low + 4);
        for i in low..high {
            book.rule(inc, &add(low, i));
        }
        if high < n {
            book.rule(inc, &[carry(low, high), vec![CALL + inc + 1]].concat());
        }
    }
    book.goal(goal)
}

/// A rule that calls itself first, in front of another call.
fn left(n: u16) -> Book {
    numbers(n, &[&[REACH, INC]], &[REACH])
}

/// The same behind a call.
fn noop_left(n: u16) -> Book {
    numbers(n, &[&[NOOP, REACH, INC]], &[REACH])
}

/// The same in front of two calls. The goal asks for half of the numbers, so that 14 bits fit.
fn left_noop(n: u16) -> Book {
    numbers(n, &[&[REACH, INC, NOOP]], &[REACH, QUERY + n - 1])
}

/// The same, with the two calls in the other order.
fn mid_noop(n: u16) -> Book {
    numbers(n, &[&[REACH, NOOP, INC]], &[REACH, QUERY + n - 1])
}

/// A rule that calls itself twice: both calls grow.
fn double(n: u16) -> Book {
    numbers(n, &[&[REACH, REACH], &[INC]], &[REACH])
}

/// All rows call one call, which gains one answer in each of many rounds. The goal chooses a number of n/2 bits; for each of them
/// action 1 is a row that clears the bits and calls `hub`, which calls itself first and counts over n/2 bits, one number a round.
/// The larger half of n is the rows'.
fn hub(n: u16) -> Book {
    let rows = n.div_ceil(2);
    let mut book = Book::new(rows, rows + 2, 0);
    book.rule(0, &[]);
    for i in 0..n / 2 {
        book.rule(0, &[vec![CALL], add(0, i)].concat());
    }
    let mut clear: Vec<u16> = (0..rows).map(|i| DELETE + i).collect();
    clear.push(CALL);
    book.rule(1, &clear);
    let mut goal = choose(&mut book, 2, rows);
    goal.push(CALL + 1);
    book.goal(&goal)
}
