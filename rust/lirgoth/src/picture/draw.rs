//! Writes a picture's elements, one a line. Colours and strokes are chosen here, places in `layout`.

use super::layout::Page;
use super::links::Weight;
use super::shapes::{Anchor, Badge, Label, Point, Spot, Stroke, BADGE, OUTLINE};
use super::text::{self, escape};
use super::{Content, Part};

/// Size of an office's number: the largest writing in the picture but for the title, since numbers
/// are what cards and plans go by.
const NUMBER_SIZE: f64 = 22.0;
/// Size of a set's letter: two thirds of its square.
const LETTER_SIZE: f64 = BADGE * 2.0 / 3.0;

/// Colours of a set: of its circles and squares, and of what is written on them. They are from the
/// palette of Okabe and Ito, which colour-blind readers can tell apart, and differ in brightness too,
/// for print in black and white.
fn colours(part: Part) -> (&'static str, &'static str) {
    match part {
        Part::F => ("#cc79a7", "black"),
        Part::C => ("#f0e442", "black"),
        Part::L => ("#0072b2", "white"),
        Part::R => ("#e69f00", "black"),
        Part::K => ("#009e73", "black"),
    }
}

/// Colours of an office that is in no set.
const NO_PART: (&str, &str) = ("white", "black");

/// Strokes of links. A thin one is 0.4 mm wide in print and not quite black, so that arrow heads
/// and thick links stand out; a dash is a little longer than the gap after it.
const THIN: &str = r##"stroke="#444444" stroke-width="1.5""##;
const THICK: &str = r#"stroke="black" stroke-width="4""#;
const DASHES: &str = r#"stroke-dasharray="5 4""#;

fn pen(weight: Weight) -> String {
    match weight {
        Weight::Plain => THIN.to_string(),
        Weight::Heard => THICK.to_string(),
        Weight::LeftOut | Weight::Taken => format!("{THIN} {DASHES}"),
    }
}

/// The SVG file.
pub fn document(content: &Content, page: &Page) -> String {
    let mut file = Writer::default();
    file.line(r#"<?xml version="1.0" encoding="UTF-8"?>"#);
    file.group(&root(page), |file| {
        let title = escape(&content.title);
        file.line(&format!(r#"<title id="title">{title}</title>"#));
        file.group(r#"desc id="desc""#, |file| {
            for sentence in &content.description {
                file.line(&escape(sentence));
            }
        });
        file.line(r#"<rect width="100%" height="100%" fill="white"/>"#);
        file.line(&words(&page.title, &font(page.title.size, "bold")));
        file.line(&words(&page.verdict, &font(page.verdict.size, "normal")));
        strokes(file, "links", &page.links);
        offices(file, &page.offices);
        legend(file, page);
    });
    file.text
}

fn root(page: &Page) -> String {
    let [width, height] = [page.width, page.height].map(fixed);
    [
        r#"svg xmlns="http://www.w3.org/2000/svg""#,
        &format!(r#"width="{width}" height="{height}" viewBox="0 0 {width} {height}""#),
        r#"role="img" aria-labelledby="title desc""#,
        &format!(r#"font-family="sans-serif" font-size="{}""#, text::SIZE),
    ]
    .join(" ")
}

/// Thick links over thin ones, and the heads over all lines, so that no line crosses a head.
fn strokes(file: &mut Writer, class: &str, strokes: &[Stroke]) {
    file.group(&format!(r#"g class="{class}""#), |file| {
        for weight in [Weight::LeftOut, Weight::Taken, Weight::Plain, Weight::Heard] {
            let those = strokes.iter().filter(|stroke| stroke.weight == weight);
            let lines: Vec<String> = those.map(line).collect();
            file.group_of(&format!("g {}", pen(weight)), &lines);
        }
        let heads = strokes.iter().filter_map(|stroke| stroke.head);
        let heads: Vec<String> = heads.map(polygon).collect();
        file.group_of(r#"g fill="black""#, &heads);
    });
}

fn line(stroke: &Stroke) -> String {
    let (from, to) = (stroke.from, stroke.to);
    let [x1, y1, x2, y2] = [from.x, from.y, to.x, to.y].map(fixed);
    format!(r#"<line x1="{x1}" y1="{y1}" x2="{x2}" y2="{y2}"/>"#)
}

fn polygon(corners: [Point; 3]) -> String {
    let corners = corners.map(|corner| format!("{},{}", fixed(corner.x), fixed(corner.y)));
    format!(r#"<polygon points="{}"/>"#, corners.join(" "))
}

fn offices(file: &mut Writer, offices: &[Spot]) {
    file.group(r#"g class="offices""#, |file| {
        for (number, office) in offices.iter().enumerate() {
            file.group("g", |file| draw_office(file, number, office));
        }
    });
}

fn draw_office(file: &mut Writer, number: usize, office: &Spot) {
    let (fill, ink) = office.badge.map_or(NO_PART, |badge| colours(badge.part));
    file.line(&circle(office.centre, office.radius, fill));
    file.line(&sign(office.centre, NUMBER_SIZE, ink, &number.to_string()));
    if let Some(badge) = &office.badge {
        draw_badge(file, badge);
    }
    for line in &office.beside {
        file.line(&words(line, ""));
    }
}

fn circle(centre: Point, radius: f64, fill: &str) -> String {
    let [x, y, r] = [centre.x, centre.y, radius].map(fixed);
    let outline = format!(r#"stroke="black" stroke-width="{OUTLINE}""#);
    format!(r#"<circle cx="{x}" cy="{y}" r="{r}" fill="{fill}" {outline}/>"#)
}

fn draw_badge(file: &mut Writer, badge: &Badge) {
    let (fill, ink) = colours(badge.part);
    let frame = badge.frame();
    let [x, y, side] = [frame.left, frame.top, BADGE].map(fixed);
    file.line(&format!(
        r#"<rect x="{x}" y="{y}" width="{side}" height="{side}" fill="{fill}" stroke="black"/>"#
    ));
    let letter = badge.part.letter().to_string();
    file.line(&sign(badge.centre, LETTER_SIZE, ink, &letter));
}

/// A bold letter or digit around a point.
fn sign(at: Point, size: f64, ink: &str, sign: &str) -> String {
    let label = Label {
        at,
        size,
        anchor: Anchor::Middle,
        text: sign.to_string(),
    };
    let font = font(size, "bold");
    words(&label, &format!(r#"{font} fill="{ink}""#))
}

fn font(size: f64, weight: &str) -> String {
    format!(r#" font-size="{size}" font-weight="{weight}""#)
}

/// A line of text; `font` says what differs from the font of the whole file.
fn words(label: &Label, font: &str) -> String {
    let [x, y] = [label.at.x, label.base()].map(fixed);
    let anchor = match label.anchor {
        Anchor::Start => "",
        Anchor::Middle => r#" text-anchor="middle""#,
        Anchor::End => r#" text-anchor="end""#,
    };
    let text = escape(&label.text);
    format!(r#"<text x="{x}" y="{y}"{anchor}{font}>{text}</text>"#)
}

fn legend(file: &mut Writer, page: &Page) {
    file.group(r#"g class="legend""#, |file| {
        strokes(file, "samples", &page.legend.links);
        for &(centre, radius) in &page.legend.circles {
            file.line(&circle(centre, radius, NO_PART.0));
        }
        for badge in &page.legend.badges {
            draw_badge(file, badge);
        }
        for line in &page.legend.words {
            file.line(&words(line, ""));
        }
    });
}

/// A length with one decimal, never `-0.0`.
fn fixed(length: f64) -> String {
    // Adding zero turns a negative zero into zero.
    format!("{:.1}", (length * 10.0).round() / 10.0 + 0.0)
}

/// The lines of a file, indented by the groups that they are in.
#[derive(Default)]
struct Writer {
    text: String,
    depth: usize,
}

impl Writer {
    fn line(&mut self, line: &str) {
        self.text.push_str(&"  ".repeat(self.depth));
        self.text.push_str(line);
        self.text.push('\n');
    }

    /// An element with others inside; `tag` is its name and its attributes.
    fn group(&mut self, tag: &str, inside: impl FnOnce(&mut Writer)) {
        let name = tag.split(' ').next().unwrap_or(tag);
        self.line(&format!("<{tag}>"));
        self.depth += 1;
        inside(self);
        self.depth -= 1;
        self.line(&format!("</{name}>"));
    }

    /// A group of elements, or nothing where there are none.
    fn group_of(&mut self, tag: &str, elements: &[String]) {
        if !elements.is_empty() {
            self.group(tag, |file| {
                elements.iter().for_each(|element| file.line(element))
            });
        }
    }
}

#[cfg(test)]
mod tests {
    use super::*;

    #[test]
    fn lengths_have_one_decimal_and_zero_has_no_sign() {
        let lengths = [-0.04, -0.0, 0.0, 0.04, -0.06, 1.0, 12.35, 720.0];
        let written = ["0.0", "0.0", "0.0", "0.0", "-0.1", "1.0", "12.4", "720.0"];
        assert_eq!(lengths.map(fixed), written);
    }
}
