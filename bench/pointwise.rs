//! The straightforward evaluator: each form at each event, as the meaning of rules says it, with no automaton. An until or a release
//! looks at every later event.
use crate::plain::{Event, Interval, Node, Reader, Scale};

// The join over each j from i on whose time since i lies in the interval of the meet of right at j and left before it;
// with meets and joins exchanged where `dual`, which turning the order of the numbers round comes to.
fn waiting(events: &[Event], interval: Interval, left: &[u8], right: &[u8], i: usize, dual: bool) -> u8 {
    let turn = |g: u8| if dual { 255 - g } else { g };
    let mut best = 0;
    let mut before = 255;
    for j in i..events.len() {
        if interval.contains(events[j].time - events[i].time) {
            best = best.max(before.min(turn(right[j])));
        }
        before = before.min(turn(left[j]));
    }
    turn(best)
}

fn stepped(events: &[Event], interval: Interval, inner: &[u8], i: usize, otherwise: u8) -> u8 {
    if i + 1 < events.len() && interval.contains(events[i + 1].time - events[i].time) {
        inner[i + 1]
    } else {
        otherwise
    }
}

/// The grade of the rule at every event, by its shown number.
pub fn grades(scale: Scale, text: &[u8], events: &[Event]) -> Vec<u8> {
    let mut reader = Reader { text, at: 0, nodes: Vec::new() };
    reader.form();
    let n = events.len();
    let top = vec![255; n];
    let bottom = vec![0; n];
    let mut rows: Vec<Vec<u8>> = Vec::new();
    for node in &reader.nodes {
        let row = (0..n)
            .map(|i| match *node {
                Node::Top => 255,
                Node::Bottom => 0,
                Node::Fact(p) => scale.of_reading(events[i].readings[p as usize]),
                Node::Opposite(f) => scale.opposite(rows[f][i]),
                Node::Both(f, g) => rows[f][i].min(rows[g][i]),
                Node::Either(f, g) => rows[f][i].max(rows[g][i]),
                Node::Implies(f, g) => scale.opposite(rows[f][i]).max(rows[g][i]),
                Node::Next(t, f) => stepped(events, t, &rows[f], i, 0),
                Node::DualNext(t, f) => stepped(events, t, &rows[f], i, 255),
                Node::Eventually(t, f) => waiting(events, t, &top, &rows[f], i, false),
                Node::Always(t, f) => waiting(events, t, &bottom, &rows[f], i, true),
                Node::Until(t, f, g) => waiting(events, t, &rows[f], &rows[g], i, false),
                Node::Release(t, f, g) => waiting(events, t, &rows[f], &rows[g], i, true),
            })
            .collect();
        rows.push(row);
    }
    rows.pop().unwrap()
}
