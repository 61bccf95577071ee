//! The shapes of a picture in their places. Lengths are in SVG's user units, which a screen shows as
//! pixels; x goes to the right and y down.

use super::links::{Ways, Weight};
use super::text;
use super::Part;

/// Line around an office's circle.
pub const OUTLINE: f64 = 2.0;
/// Side of the square with a set's letter, a little less than a circle's radius.
pub const BADGE: f64 = 24.0;
/// From one line of text to the next, in parts of its size; fonts ask for 1.2, and more reads better.
pub const LEADING: f64 = 1.4;
/// From the middle of a line of text down to its base, in parts of its size: half of a capital's
/// height, which is a little over 0.7 in the usual fonts.
const TO_BASE: f64 = 0.36;

/// An arrow head, from tip to base and across the base: 4 mm by 3 in print, which is seen at arm's
/// length, and slim enough for seven that meet at one circle.
const HEAD_LENGTH: f64 = 15.0;
const HEAD_WIDTH: f64 = 11.0;
/// Between an arrow's tip and the circle, so that the tip is seen.
const TIP_GAP: f64 = 1.0;

#[derive(Debug, Clone, Copy, PartialEq)]
pub struct Point {
    pub x: f64,
    pub y: f64,
}

impl Point {
    pub fn new(x: f64, y: f64) -> Point {
        Point { x, y }
    }

    pub fn plus(self, dx: f64, dy: f64) -> Point {
        Point::new(self.x + dx, self.y + dy)
    }

    /// The step of length 1 from here towards `other`.
    fn direction(self, other: Point) -> (f64, f64) {
        let (dx, dy) = (other.x - self.x, other.y - self.y);
        // Not `hypot`, whose last digits differ from machine to machine.
        let length = (dx * dx + dy * dy).sqrt();
        (dx / length, dy / length)
    }
}

/// A box with level sides.
#[derive(Debug, Clone, Copy, PartialEq)]
pub struct Frame {
    pub left: f64,
    pub top: f64,
    pub right: f64,
    pub bottom: f64,
}

impl Frame {
    fn around(centre: Point, width: f64, height: f64) -> Frame {
        Frame {
            left: centre.x - width / 2.0,
            top: centre.y - height / 2.0,
            right: centre.x + width / 2.0,
            bottom: centre.y + height / 2.0,
        }
    }

    /// The box around both.
    pub fn with(self, other: Frame) -> Frame {
        Frame {
            left: self.left.min(other.left),
            top: self.top.min(other.top),
            right: self.right.max(other.right),
            bottom: self.bottom.max(other.bottom),
        }
    }
}

/// Which end of a text stands at its point.
#[derive(Debug, Clone, Copy, PartialEq, Eq)]
pub enum Anchor {
    Start,
    Middle,
    End,
}

/// A line of text; `at` is at the middle of its height.
#[derive(Debug, Clone, PartialEq)]
pub struct Label {
    pub at: Point,
    pub size: f64,
    pub anchor: Anchor,
    pub text: String,
}

impl Label {
    /// The height at which its letters stand.
    pub fn base(&self) -> f64 {
        self.at.y + TO_BASE * self.size
    }

    /// The room that it takes at most.
    pub fn frame(&self) -> Frame {
        let width = text::width(&self.text, self.size);
        let to_middle = match self.anchor {
            Anchor::Start => width / 2.0,
            Anchor::Middle => 0.0,
            Anchor::End => -width / 2.0,
        };
        Frame::around(self.at.plus(to_middle, 0.0), width, LEADING * self.size)
    }
}

/// The letter of a set in a square.
#[derive(Debug, Clone, Copy, PartialEq)]
pub struct Badge {
    pub centre: Point,
    pub part: Part,
}

impl Badge {
    pub fn frame(&self) -> Frame {
        Frame::around(self.centre, BADGE, BADGE)
    }
}

/// An office's circle, and what is written beside it.
#[derive(Debug, Clone, PartialEq)]
pub struct Spot {
    pub centre: Point,
    pub radius: f64,
    pub badge: Option<Badge>,
    /// The lines of its name, and of its load.
    pub beside: Vec<Label>,
}

impl Spot {
    /// The room of the circle.
    pub fn circle(&self) -> Frame {
        let across = 2.0 * self.radius + OUTLINE;
        Frame::around(self.centre, across, across)
    }

    /// The room of the circle and of what is written beside it.
    pub fn frame(&self) -> Frame {
        let badge = self.badge.iter().map(Badge::frame);
        let beside = self.beside.iter().map(Label::frame);
        badge.chain(beside).fold(self.circle(), Frame::with)
    }

    pub fn shift(&mut self, dx: f64, dy: f64) {
        self.centre = self.centre.plus(dx, dy);
        if let Some(badge) = &mut self.badge {
            badge.centre = badge.centre.plus(dx, dy);
        }
        for label in &mut self.beside {
            label.at = label.at.plus(dx, dy);
        }
    }

    /// Where the line to another office leaves the circle.
    fn edge(&self, other: &Spot) -> Point {
        let (across, down) = self.centre.direction(other.centre);
        let radius = self.radius + OUTLINE / 2.0;
        self.centre.plus(radius * across, radius * down)
    }
}

/// A link: its line, and where it goes one way the arrow head, tip first.
#[derive(Debug, Clone, Copy, PartialEq)]
pub struct Stroke {
    pub from: Point,
    pub to: Point,
    pub head: Option<[Point; 3]>,
    pub weight: Weight,
}

impl Stroke {
    /// From the edge of one circle to the edge of the other.
    pub fn link(from: &Spot, to: &Spot, ways: Ways, weight: Weight) -> Stroke {
        Stroke::new(from.edge(to), to.edge(from), ways, weight)
    }

    pub fn new(from: Point, to: Point, ways: Ways, weight: Weight) -> Stroke {
        let head = (ways == Ways::One).then(|| head(from, to));
        // An arrow's line stops at the base of the head, else it would blunt the tip.
        let to = head.map_or(to, |_| base(from, to));
        Stroke {
            from,
            to,
            head,
            weight,
        }
    }
}

/// The middle of the base of the head of an arrow between two points.
fn base(from: Point, to: Point) -> Point {
    let (across, down) = from.direction(to);
    let length = TIP_GAP + HEAD_LENGTH;
    to.plus(-length * across, -length * down)
}

fn head(from: Point, to: Point) -> [Point; 3] {
    let (across, down) = from.direction(to);
    let half = HEAD_WIDTH / 2.0;
    let base = base(from, to);
    [
        to.plus(-TIP_GAP * across, -TIP_GAP * down),
        base.plus(-half * down, half * across),
        base.plus(half * down, -half * across),
    ]
}
