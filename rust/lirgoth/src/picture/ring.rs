//! Where the offices stand: in a ring, clockwise, each with its letter, its name and its load on the
//! outside.

use super::shapes::{Anchor, Badge, Label, Point, Spot, BADGE, LEADING};
use super::text;
use super::words;
use super::Office;
use std::f64::consts::PI;

/// Radius of an office's circle, if it is not drawn larger for its load. Seven arrows may meet at
/// one office of eight, 22.5 degrees apart: at this radius their heads have half a head of white
/// between them.
pub const RADIUS: f64 = 26.0;
/// How far apart neighbours in the ring are, from centre to centre: two thirds of it is seen as the
/// link between them.
const NEIGHBOURS: f64 = 160.0;
/// Between circle, letter and name.
const GAP: f64 = 8.0;

/// Width of a name's lines unless a word is wider: about half of the longest name, 24 letters.
const NAME_ROOM: f64 = 8.0 * text::SIZE;

/// The side of an office on which its letter, its name and its load stand.
#[derive(Debug, Clone, Copy, PartialEq, Eq)]
enum Side {
    Left,
    Above,
    Right,
}

/// The offices in a ring around (0, 0). An odd number of them starts at the top, an even one to the
/// left of it: so all names but one stand to the left or right, where there is room.
pub fn ring(offices: &[Office]) -> Vec<Spot> {
    let n = offices.len() as f64;
    let radius = settled(NEIGHBOURS / 2.0 / (PI / n).sin());
    let start = match offices.len() % 2 {
        0 => -0.5,
        _ => 0.0,
    };
    let place = |(i, office)| {
        let angle = (start + i as f64) * 2.0 * PI / n;
        spot(office, settled(angle.sin()), settled(-angle.cos()), radius)
    };
    offices.iter().enumerate().map(place).collect()
}

/// To six decimals: sines differ in their last digits from machine to machine, and nothing after
/// this step does.
fn settled(length: f64) -> f64 {
    (length * 1e6).round() / 1e6
}

/// An office in the direction (`across`, `down`) from the middle of a ring of the given radius.
fn spot(office: &Office, across: f64, down: f64, ring: f64) -> Spot {
    let centre = Point::new(ring * across, ring * down);
    let side = match across {
        across if across < 0.0 => Side::Left,
        across if across > 0.0 => Side::Right,
        _ => Side::Above,
    };
    let beside = |distance: f64| match side {
        Side::Left => centre.plus(-distance, 0.0),
        Side::Above => centre.plus(0.0, -distance),
        Side::Right => centre.plus(distance, 0.0),
    };
    let edge = office.radius + GAP;
    let badge = office.part.map(|part| Badge {
        centre: beside(edge + BADGE / 2.0),
        part,
    });
    let start = beside(edge + badge.map_or(0.0, |_| BADGE + GAP));
    let name = office.name.as_deref();
    let mut lines = name.map_or(Vec::new(), |name| text::wrap(name, text::SIZE, NAME_ROOM));
    lines.extend(office.relayed.map(words::relayed));
    Spot {
        centre,
        radius: office.radius,
        badge,
        beside: labels(lines, start, side, down),
    }
}

/// The lines beside an office, which begin at `start`. Beside one that stands high (`down` near -1)
/// they reach up, beside one that stands low they reach down: away from the links.
fn labels(lines: Vec<String>, start: Point, side: Side, down: f64) -> Vec<Label> {
    let leading = LEADING * text::SIZE;
    let from_first_to_last = lines.len().saturating_sub(1) as f64 * leading;
    let first = match side {
        Side::Above => -from_first_to_last - leading / 2.0,
        Side::Left | Side::Right => (down - 1.0) / 2.0 * from_first_to_last,
    };
    let anchor = match side {
        Side::Left => Anchor::End,
        Side::Above => Anchor::Middle,
        Side::Right => Anchor::Start,
    };
    let label = |(i, text)| Label {
        at: start.plus(0.0, first + i as f64 * leading),
        size: text::SIZE,
        anchor,
        text,
    };
    lines.into_iter().enumerate().map(label).collect()
}

#[cfg(test)]
mod tests {
    use super::*;

    /// The nearest that a sine may come to the middle between two numbers of six decimals: far more
    /// than machines differ by.
    const SAFE: f64 = 1e-9;

    #[test]
    fn no_sine_of_a_ring_is_settled_by_its_last_digits() {
        let is_safe = |length: f64| {
            let fraction = (length * 1e6).abs().fract();
            assert!((fraction - 0.5).abs() > SAFE * 1e6, "{length}");
        };
        for n in 2..=8 {
            is_safe(NEIGHBOURS / 2.0 / (PI / f64::from(n)).sin());
            for half_steps in 0..2 * n {
                let angle = PI / f64::from(n) * f64::from(half_steps);
                is_safe(angle.sin());
                is_safe(angle.cos());
            }
        }
    }
}
