//! Where the ways part: the ways shown, drawn as one line while their states agree.

use super::html::{esc, Svg};
use super::step_text;
use crate::drill::Drill;
use crate::layout::Layout;

/// States of the longest way that the map is drawn for.
const MOST_STATES: usize = 400;

const LEVEL: f64 = 44.0;
const FIRST_LEVEL: f64 = 34.0;
const LEFT: f64 = 14.0;
const WIDE: f64 = 620.0;
const WIDEST_STATE: f64 = 34.0;
const CODE_WIDTH: f64 = 7.9;
const NAME_WIDTH: f64 = 9.4;
const OVER: &str = "is over";

/// A stretch that some ways have in common.
struct Stretch<'a> {
    from: f64,
    to: f64,
    level: usize,
    label: String,
    /// The end that it leads to, or the levels of the stretches that go on from it.
    end: Option<&'a (usize, Layout)>,
    on: Vec<usize>,
    at: usize,
}

struct Map<'a> {
    drill: &'a Drill,
    column: f64,
    levels: usize,
    stretches: Vec<Stretch<'a>>,
    says: Vec<(usize, Vec<String>)>,
}

/// The map and what it says as a list; `None` where there is nothing to part or the ways are too long.
pub fn map(drill: &Drill, ways: &[(usize, Layout)]) -> Option<(String, Vec<String>)> {
    let longest = ways.iter().map(|(_, layout)| layout.states.len()).max()?;
    if ways.len() < 2 || longest > MOST_STATES || ways.iter().any(|(_, layout)| !layout.whole) {
        return None;
    }
    let column = WIDEST_STATE.min(WIDE / (longest.max(2) - 1) as f64);
    let mut map = Map { drill, column, levels: 0, stretches: Vec::new(), says: Vec::new() };
    let top = map.grow(ways.iter().collect(), 0, String::new(), LEFT);
    map.says.sort_by_key(|(at, _)| *at);
    let says = map.says.iter().map(|(at, parts)| format!("After state {at}: {}.", parts.join("; "))).collect();
    Some((map.drawn(top), says))
}

impl<'a> Map<'a> {
    fn reach(&self, from: f64, states: usize, label: &str, parts: bool) -> f64 {
        let room =
            if label.is_empty() { 44.0 } else { label.chars().count() as f64 * CODE_WIDTH + if parts { 34.0 } else { 26.0 } };
        from + room.max(states as f64 * self.column)
    }

    fn stretch(&mut self, from: f64, to: f64, level: usize, label: String, at: usize) -> &mut Stretch<'a> {
        self.stretches.push(Stretch { from, to, level, label, end: None, on: Vec::new(), at });
        self.stretches.last_mut().expect("one was just pushed")
    }

    fn next_level(&mut self) -> usize {
        self.levels += 1;
        self.levels - 1
    }

    /// Draws the ways of a group from a state on and gives the level of their line. There are few ways, so few levels.
    fn grow(&mut self, group: Vec<&'a (usize, Layout)>, from_state: usize, label: String, x: f64) -> usize {
        let mut at = from_state;
        let next = |way: &(usize, Layout), at: usize| way.1.states.get(at + 1).copied();
        while next(group[0], at).is_some() && group.iter().all(|way| next(way, at) == next(group[0], at)) {
            at += 1;
        }
        if let [way] = group[..] {
            let (to, level) = (self.reach(x, at - from_state, &label, false), self.next_level());
            self.stretch(x, to, level, label, at).end = Some(way);
            return level;
        }
        let far = self.reach(x, at - from_state, &label, true);
        let (mut on, mut said) = (Vec::new(), Vec::new());
        let mut parts: Vec<(u64, Vec<&(usize, Layout)>)> = Vec::new();
        for way in group {
            match next(way, at) {
                None => {
                    let (to, level) = (self.reach(far, 0, OVER, false), self.next_level());
                    on.push(level);
                    said.push(format!("it is over: end {}", way.0));
                    self.stretch(far, to, level, OVER.into(), at).end = Some(way);
                }
                Some(state) => match parts.iter_mut().find(|(other, _)| *other == state) {
                    Some((_, part)) => part.push(way),
                    None => parts.push((state, vec![way])),
                },
            }
        }
        for (_, part) in parts {
            let step = step_text(self.drill, part[0].1.updates[at].word);
            let ends: Vec<String> = part.iter().map(|way| format!("end {}", way.0)).collect();
            said.push(format!("<code>{}</code> to {}", esc(&step), ends.join(", ")));
            on.push(self.grow(part, at, step, far));
        }
        self.says.push((at, said));
        let level = on[0];
        self.stretch(x, far, level, label, at).on = on;
        level
    }

    fn name(&self, number: usize) -> String {
        let end = self.drill.ends()[number - 1];
        let Some(apart) = self.drill.apart(end).filter(|apart| apart.with.len() + apart.without.len() <= 2) else {
            return format!("end {number}");
        };
        let without = self.drill.named(&apart.without).into_iter().map(|name| format!("no {name}"));
        let names: Vec<String> = self.drill.named(&apart.with).into_iter().map(String::from).chain(without).collect();
        format!("end {number} · {}", names.join(", "))
    }

    fn drawn(&self, top: usize) -> String {
        let y = |level: usize| FIRST_LEVEL + level as f64 * LEVEL;
        let right =
            |s: &Stretch<'_>| s.to + s.end.map_or(20.0, |way| self.name(way.0).chars().count() as f64 * NAME_WIDTH + 24.0);
        let width = self.stretches.iter().map(right).fold(0.0, f64::max);
        let mut svg = Svg::new(width, y(self.levels.max(1) - 1) + 22.0, "Map of the ways shown; the list below it says the same");
        for s in &self.stretches {
            svg.path("line", &format!("M{:.1} {}H{:.1}", s.from, y(s.level), s.to));
            if let Some(&last) = s.on.last() {
                svg.path("line", &format!("M{:.1} {}V{}", s.to, y(s.level), y(last)));
            }
        }
        for s in &self.stretches {
            let level = y(s.level);
            if !s.on.is_empty() {
                svg.circle("ring", (s.to, level), 12.0);
                svg.text("ringno", (s.to, level + 4.3), &s.at.to_string());
            }
            if !s.label.is_empty() {
                svg.text("step", (s.from + 15.0, level - 9.0), &s.label);
            }
            if let Some(way) = s.end {
                svg.circle("dot", (s.to, level), 7.0);
                svg.link(&format!("#end{}", way.0));
                svg.text("endname", (s.to + 14.0, level + 5.0), &self.name(way.0));
                svg.link_end();
            }
        }
        svg.circle("startdot", (LEFT, y(top)), 7.0);
        svg.text("startname", (LEFT - 6.0, y(top) - 13.0), "start");
        svg.done()
    }
}
