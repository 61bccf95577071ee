//! Where everything of a picture stands: heading, ring and legend, from the top down.

use super::legend::{Entry, Symbol};
use super::links::Link;
use super::ring::ring;
use super::shapes::{Anchor, Badge, Frame, Label, Point, Spot, Stroke, LEADING};
use super::text;
use super::Content;

/// Width of a picture unless names ask for more: where it is printed 180 mm wide, on a sheet of A4,
/// four units make a millimetre.
const WIDTH: f64 = 720.0;
/// Kept free at every edge: 6 mm in print, of which printers leave up to 5 blank.
const MARGIN: f64 = 24.0;
/// Between rows of the legend, and twice as much above and below the ring.
const GAP: f64 = 8.0;

/// Sizes of the heading, each a clear step above the rest of the text.
const TITLE_SIZE: f64 = 24.0;
const VERDICT_SIZE: f64 = 18.0;

/// Length of the line that the legend shows for a link: an arrow head and a little more line.
const SAMPLE: f64 = 40.0;
/// Radii of the two circles that it shows for the load; the larger is as high as a line of text.
const SIZES: [f64; 2] = [6.0, 10.0];
/// From the left of a legend's symbol to its text.
const INDENT: f64 = SAMPLE + 2.0 * GAP;

/// Everything in its place.
pub struct Page {
    pub width: f64,
    pub height: f64,
    pub title: Label,
    pub verdict: Label,
    pub offices: Vec<Spot>,
    pub links: Vec<Stroke>,
    pub legend: Legend,
}

/// The legend: its words, and the links, circles and letters that they explain.
#[derive(Default)]
pub struct Legend {
    pub words: Vec<Label>,
    pub links: Vec<Stroke>,
    /// Centres and radii.
    pub circles: Vec<(Point, f64)>,
    pub badges: Vec<Badge>,
}

pub fn page(content: &Content) -> Page {
    let mut offices = ring(&content.offices);
    let around = bounds(&offices);
    let across = around.right - around.left;
    let width = f64::max(WIDTH, across.ceil() + 2.0 * MARGIN);

    let mut y = MARGIN;
    let title = next_line(&mut y, MARGIN, TITLE_SIZE, &content.title);
    let verdict = next_line(&mut y, MARGIN, VERDICT_SIZE, &content.verdict);
    y += 2.0 * GAP;
    let dx = (width - across) / 2.0 - around.left;
    let dy = y - around.top;
    offices.iter_mut().for_each(|office| office.shift(dx, dy));
    y = around.bottom + dy + 2.0 * GAP;
    let legend = legend(&mut y, width, &content.legend);

    Page {
        width,
        height: y.ceil() + MARGIN,
        title,
        verdict,
        links: links(&content.links, &offices),
        offices,
        legend,
    }
}

/// The room of all offices with what is written beside them.
fn bounds(offices: &[Spot]) -> Frame {
    offices
        .iter()
        .map(Spot::frame)
        .reduce(Frame::with)
        .expect("a network has offices")
}

fn links(links: &[Link], offices: &[Spot]) -> Vec<Stroke> {
    let link = |link: &Link| {
        let [from, to] = [link.from, link.to].map(|office| &offices[usize::from(office)]);
        Stroke::link(from, to, link.ways, link.weight)
    };
    links.iter().map(link).collect()
}

/// A line of text that begins at `x`, below `y`, which becomes the height below the line.
fn next_line(y: &mut f64, x: f64, size: f64, text: &str) -> Label {
    let height = LEADING * size;
    let at = Point::new(x, *y + height / 2.0);
    *y += height;
    Label {
        at,
        size,
        anchor: Anchor::Start,
        text: text.to_string(),
    }
}

/// The rows of the legend, below `y`, which becomes the height below the last.
fn legend(y: &mut f64, width: f64, entries: &[Entry]) -> Legend {
    let mut legend = Legend::default();
    for (i, entry) in entries.iter().enumerate() {
        if i > 0 {
            *y += GAP;
        }
        let indent = entry.symbol.map_or(0.0, |_| INDENT);
        if let Some(symbol) = entry.symbol {
            legend.show(symbol, *y + LEADING * text::SIZE / 2.0);
        }
        let x = MARGIN + indent;
        for line in text::wrap(&entry.text, text::SIZE, width - MARGIN - x) {
            legend.words.push(next_line(y, x, text::SIZE, &line));
        }
    }
    legend
}

impl Legend {
    /// A symbol at the height of the first line of its text.
    fn show(&mut self, symbol: Symbol, level: f64) {
        let left = Point::new(MARGIN, level);
        match symbol {
            Symbol::Link(ways, weight) => {
                let right = left.plus(SAMPLE, 0.0);
                self.links.push(Stroke::new(left, right, ways, weight));
            }
            Symbol::Sizes => {
                // The first begins where a sample of a link does, and the last ends there.
                let [small, large] = SIZES;
                let ends = [small, SAMPLE - large].map(|x| left.plus(x, 0.0));
                self.circles.extend(ends.into_iter().zip(SIZES));
            }
            Symbol::Part(part) => {
                let centre = left.plus(SAMPLE / 2.0, 0.0);
                self.badges.push(Badge { centre, part });
            }
        }
    }
}
