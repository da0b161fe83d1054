//! A way by valve: one row for each fluent that is updated, one column for each state.

use std::fmt::Write;

use lawhemuri::unfolding::Step;

use super::html::Svg;
use super::step_text;
use crate::drill::Drill;
use crate::layout::{Bar, Layout};

/// States in one band.
pub const BAND: usize = 40;
/// States drawn first and last of a long way.
const HEAD: usize = 80;
const TAIL: usize = 40;
/// Levels of calls drawn as bars.
const MOST_LEVELS: usize = 7;

const ROW: f64 = 23.0;
const TOP: f64 = 42.0;
const INSET: f64 = 5.0;
const RIGHT: f64 = 26.0;
const BAR: f64 = 19.0;
const LETTER_WIDTH: f64 = 9.6;
const CODE_WIDTH: f64 = 7.7;
const SMALL_WIDTH: f64 = 7.0;

/// The parts of a way that are drawn, `(first state, one past the last)`, and how many states are left out before the last part.
/// Parts that follow one another share a state, so that no edge is lost.
pub fn parts(states: usize) -> (Vec<(usize, usize)>, usize) {
    if states <= BAND {
        return (vec![(0, states)], 0);
    }
    if states <= HEAD + TAIL {
        let size = states.div_ceil(states.div_ceil(BAND));
        return ((0..states - 1).step_by(size).map(|first| (first, (first + size + 1).min(states))).collect(), 0);
    }
    let mut parts: Vec<(usize, usize)> = (0..HEAD).step_by(BAND).map(|first| (first, first + BAND + 1)).collect();
    parts.push((states - TAIL, states));
    (parts, states - TAIL - HEAD - 1)
}

/// One part of a way being drawn.
struct Chart<'a> {
    drill: &'a Drill,
    layout: &'a Layout,
    first: usize,
    last: usize,
    rows: Vec<usize>,
    left: f64,
    column: f64,
    svg: Svg,
}

/// Draws the states from `first` on and before `last`. Fluents in which ends differ are bold.
pub fn chart(drill: &Drill, layout: &Layout, bold: &[usize], (first, last): (usize, usize), label: &str) -> String {
    let rows = layout.touched(first, last);
    let states = (last - first) as f64;
    let longest = rows.iter().map(|&k| drill.fluents()[k].len()).max().unwrap_or(0).max("choice".len());
    let left = longest as f64 * LETTER_WIDTH + 20.0;
    let column = (880.0 / states).clamp(20.0, if last - first > 8 { 46.0 } else { 64.0 });
    let bottom = TOP + ROW * rows.len() as f64;
    let steps = (first..last - 1).map(|i| step_label(drill, layout, i).chars().count()).max().unwrap_or(0);
    let steps = if steps == 0 { 4.0 } else { steps as f64 * CODE_WIDTH + 16.0 };
    let bars: Vec<&Bar> = layout.bars.iter().filter(|bar| bar.reaches_into(first, last)).collect();
    let mut levels: Vec<usize> = bars.iter().map(|bar| bar.depth).collect();
    levels.sort_unstable();
    levels.dedup();
    levels.truncate(MOST_LEVELS);
    let height = bottom + steps + if levels.is_empty() { 6.0 } else { BAR * levels.len() as f64 + 22.0 };
    let label = format!("{label}, states {first} to {}; the steps are listed below it", last - 1);
    let svg = Svg::new(left + states * column + RIGHT, height, &label);
    let mut chart = Chart { drill, layout, first, last, rows, left, column, svg };
    chart.ground(bottom);
    chart.heads();
    for row in 0..chart.rows.len() {
        chart.row(row, bold);
    }
    chart.steps(bottom);
    chart.bars(&bars, &levels, bottom + steps + 6.0);
    chart.svg.done()
}

/// The step that leads to state i + 1; in brackets if it changes nothing.
fn step_label(drill: &Drill, layout: &Layout, i: usize) -> String {
    let update = layout.updates[i];
    let step = step_text(drill, update.word);
    if update.changed {
        step
    } else {
        format!("({step})")
    }
}

impl Chart<'_> {
    fn x(&self, state: usize) -> f64 {
        self.left + (state - self.first) as f64 * self.column
    }

    fn right(&self) -> f64 {
        self.x(self.last)
    }

    /// Whether the last state drawn is the end; the last of a part of a way is none.
    fn ends(&self) -> bool {
        self.layout.whole && self.last == self.layout.states.len()
    }

    /// Stripes behind the rows, lines between the states, the end's column.
    fn ground(&mut self, bottom: f64) {
        if self.ends() {
            self.svg.rect("endcol", (self.x(self.last - 1), TOP - 20.0), (self.column, bottom - TOP + 20.0));
        }
        for row in (0..self.rows.len()).step_by(2) {
            self.svg.rect("stripe", (0.0, TOP + row as f64 * ROW), (self.right() + RIGHT, ROW));
        }
        let mut lines = String::new();
        for state in self.first + 1..self.last {
            let _ = write!(lines, "M{:.1} {}V{}", self.x(state), TOP - 2.0, bottom + 4.0);
        }
        self.svg.path("grid", &lines);
    }

    /// The numbers of the states and the letters of the choices above them.
    fn heads(&mut self) {
        let side = self.left - 12.0;
        self.svg.text("side", (side, TOP - 7.0), "state");
        let every = if self.last < 1_000 { 1 } else { 5 };
        for state in (self.first..self.last).filter(|state| state % every == 0) {
            self.svg.text("state", (self.x(state) + self.column / 2.0, TOP - 7.0), &state.to_string());
        }
        let mut choices = false;
        for state in self.first..self.last {
            let Some(letters) = self.layout.choices.get(&state) else { continue };
            choices = true;
            let shown = if letters.len() > 1 && self.column < 26.0 { letters[0].clone() + "+" } else { letters.concat() };
            let (middle, width) = (self.x(state) + self.column / 2.0, 9.0 + 8.0 * shown.chars().count() as f64);
            self.svg.rect("tagbox", (middle - width / 2.0, TOP - 38.0), (width, 17.0));
            self.svg.text("tagletter", (middle, TOP - 25.0), &shown);
        }
        if choices {
            self.svg.text("side choice", (side, TOP - 25.0), "choice");
        }
        if self.ends() {
            self.svg.text("state last", (self.right() + RIGHT / 2.0, TOP - 7.0), "end");
        }
    }

    /// A fluent: high and filled where it holds; a tick where a step for it changes nothing.
    fn row(&mut self, row: usize, bold: &[usize]) {
        let k = self.rows[row];
        let base = TOP + row as f64 * ROW;
        let (high, low) = (base + INSET, base + ROW - INSET);
        let name = &self.drill.fluents()[k];
        self.svg.group(&format!(" class=\"row\" data-fluent=\"{name}\""), "");
        self.svg.text(if bold.contains(&k) { "name differs" } else { "name" }, (self.left - 12.0, base + 16.5), name);
        let mut line = String::new();
        for (from, to, holds) in self.layout.by_valve.stretches(k, self.first, self.last) {
            let y = if holds { high } else { low };
            let begin = if line.is_empty() { format!("M{:.1} {y}", self.x(from)) } else { format!("V{y}") };
            let _ = write!(line, "{begin}H{:.1}", self.x(to));
            if holds {
                self.svg.rect("hi", (self.x(from), high), ((to - from) as f64 * self.column, low - high));
            }
        }
        self.svg.path("level", &line);
        for i in self.first..self.last - 1 {
            let update = self.layout.updates[i];
            if !update.changed && Step::of(update.word).index == k {
                let y = if self.layout.by_valve.holds(k, i) { high } else { low };
                self.svg.path("tick", &format!("M{:.1} {}v9", self.x(i + 1), y - 4.5));
            }
        }
        if self.ends() {
            let (x, y) = (self.right() + RIGHT / 2.0, base + ROW / 2.0);
            if self.layout.by_valve.holds(k, self.last - 1) {
                self.svg.circle("dot", (x, y), 5.0);
            } else {
                self.svg.path("dash", &format!("M{:.1} {y}h10", x - 5.0));
            }
        }
        self.svg.group_end();
    }

    /// The steps, each under its edge.
    fn steps(&mut self, bottom: f64) {
        if self.last - self.first < 2 {
            return;
        }
        self.svg.text("side", (self.left - 12.0, bottom + 20.0), "step");
        for i in self.first..self.last - 1 {
            let class = if self.layout.updates[i].changed { "step" } else { "step idle" };
            self.svg.text_down(class, (self.x(i + 1) - 4.0, bottom + 9.0), &step_label(self.drill, self.layout, i));
        }
    }

    /// The actions that did the steps, a level of calls in each line.
    fn bars(&mut self, bars: &[&Bar], levels: &[usize], top: f64) {
        if levels.is_empty() {
            return;
        }
        self.svg.text("side", (self.left - 12.0, top + 13.0), "done by");
        for bar in bars {
            let Some(level) = levels.iter().position(|&level| level == bar.depth) else { continue };
            let half = self.column / 2.0;
            let from = if bar.from >= self.first { self.x(bar.from) + half } else { self.left };
            let to = if bar.to < self.last { self.x(bar.to) + half } else { self.right() };
            let (y, name) = (top + BAR * level as f64, self.drill.action(bar.action));
            let title = format!("{name}: line {}, states {} to {}", self.drill.line(bar.rule), bar.from, bar.to);
            self.svg.group("", &title);
            self.svg.rect("bar", (from + 0.8, y), (to - from - 1.6, BAR - 2.0));
            self.svg.text("barname", (from + 5.0, y + 12.8), &fitted(name, (to - from - 6.0) / SMALL_WIDTH));
            self.svg.group_end();
        }
    }
}

/// A name cut to so many letters; nothing where hardly one is left.
fn fitted(name: &str, room: f64) -> String {
    let room = room as usize;
    if name.len() <= room {
        return name.to_string();
    }
    if room < 3 {
        return String::new();
    }
    format!("{}…", &name[..room - 1])
}

#[cfg(test)]
mod tests {
    use super::*;

    #[test]
    fn parts_share_a_state() {
        assert_eq!(parts(1), (vec![(0, 1)], 0));
        assert_eq!(parts(40), (vec![(0, 40)], 0));
        assert_eq!(parts(41), (vec![(0, 22), (21, 41)], 0));
        assert_eq!(parts(120).0.last(), Some(&(80, 120)));
        assert_eq!(parts(121), (vec![(0, 41), (40, 81), (81, 121)], 0));
        assert_eq!(parts(8194), (vec![(0, 41), (40, 81), (8154, 8194)], 8073));
    }
}
