//! Tests of whole pictures: as files, as places, and as words.

mod xml;

use super::layout::{page, Page};
use super::links::{Ways, Weight};
use super::shapes::{Badge, Frame, Label, Point, Spot, Stroke, OUTLINE};
use super::*;
use crate::apart::apart;
use xml::Element;

/// Names that are long, wide, empty, or hold what XML cannot.
const AWKWARD: [&str; 8] = [
    "North Sea Tanker Brokers",
    "WWWWWWWWWWWWWWWWWWWWWWWW",
    "<Port of \"A\" & 'B'> ]]>;",
    "上海航运交易所浦东办事处上海航运交易所浦东办事处",
    "  \u{202e}חיפה\u{0}\t\n\u{ffff} 7 ",
    " \n ",
    "🚢🚢🚢🚢🚢🚢 🚢🚢🚢🚢🚢 🚢🚢🚢🚢🚢 🚢🚢🚢🚢🚢",
    "Донецк-на-Дону — Ростов",
];

fn set(servers: &[u8]) -> ServerSet {
    servers.iter().copied().collect()
}

fn network(n: u8, f: u8, linked: impl Fn(u8, u8) -> bool) -> Network {
    let row = |u: u8| (0..n).filter(|v| *v != u && linked(u, *v)).collect();
    let mut rows = [ServerSet::EMPTY; 8];
    for u in 0..n {
        rows[usize::from(u)] = row(u);
    }
    Network { n, f, rows }
}

fn named(names: &[&str]) -> Names {
    Names::new(names.iter().map(|name| Some(name.to_string())).collect())
}

/// Two regions of three offices with one link between them, and its bad split.
fn two_regions() -> (Network, Split) {
    let network = network(6, 1, |u, v| u / 3 == v / 3 || u % 3 == 0 && v % 3 == 0);
    let [f, l, c, r] = [set(&[]), set(&[1, 2]), set(&[0, 3]), set(&[4, 5])];
    (network, Split { f, l, c, r })
}

/// For n offices: no links, all links, one way between each two, and mixtures; f from 0 to 2.
fn networks(n: u8) -> Vec<Network> {
    let of = |f| {
        [
            network(n, f, |_, _| false),
            network(n, f, |_, _| true),
            network(n, f, |u, v| u < v),
            network(n, f, |u, v| (3 * u + 5 * v) % 4 != 0),
            network(n, f, |_, v| v == 0),
            network(n, f, |u, v| (u + v) % 3 == 0 || u > v),
            network(n, f, |u, v| u + v != n),
        ]
    };
    (0..=2).flat_map(of).collect()
}

/// Nothing, a split of each shape that fits, F and C empty or not, and the offices without which the
/// rest falls apart.
fn marks(network: &Network) -> Vec<Option<Mark>> {
    let all = network.servers();
    let most = usize::from(network.f);
    let of = |[f, c]: [&[u8]; 2]| {
        let [f, l, c] = [set(f), set(&[1]), set(c)];
        let r = all - f - l - c;
        let fits = (f | l | c).is_within(all) && !r.is_empty() && f.len() <= most;
        fits.then_some(Mark::Split(Split { f, l, c, r }))
    };
    let shapes: [[&[u8]; 2]; 6] = [
        [&[], &[]],
        [&[0], &[]],
        [&[], &[0]],
        [&[0], &[2]],
        [&[0, 3], &[2, 4]],
        [&[0, 2], &[3, 4, 5]],
    ];
    let bad = shapes.into_iter().filter_map(of).map(Some);
    let apart = apart(network).map(Mark::Apart);
    bad.chain(apart.map(Some)).chain([None]).collect()
}

/// No load, none on any relay, more from office to office, and the same on all, more than any plan
/// can have.
fn loads() -> [Option<Load>; 4] {
    [
        None,
        Some([0; 8]),
        Some([0, 5, 20, 60, 150, 400, 1_000, 3_000]),
        Some([10_000_000; 8]),
    ]
    .map(|routes| routes.map(|routes| Load { routes }))
}

/// Calls `check` with every network, mark and load above, without names and with awkward ones.
fn each_picture(check: impl Fn(&Network, &Names, Option<Mark>, Option<Load>)) {
    let short = named(&["Oslo", "Bergen"]);
    for names in [Names::default(), short, named(&AWKWARD)] {
        for network in (2..=8).flat_map(networks) {
            for mark in marks(&network) {
                for load in loads() {
                    check(&network, &names, mark, load);
                }
            }
        }
    }
}

fn placed(network: &Network, names: &Names, mark: Option<Mark>, load: Option<Load>) -> Page {
    page(&content(network, names, mark, load))
}

#[test]
fn every_file_is_well_formed_and_stands_alone() {
    each_picture(|network, names, mark, load| {
        let file = svg(network, names, mark, load);
        let root = xml::read(&file);
        let [title, desc] = [&root.children[0], &root.children[1]];
        assert_eq!((root.name.as_str(), title.name.as_str()), ("svg", "title"));
        assert_eq!(title.text, words::title(network));
        assert_eq!(desc.name, "desc");
        assert!(root.named("script").is_empty() && !file.contains("href"));
        assert!(!file.contains("-0.0\"") && !file.contains("url("));
        // One element a line: no line has two tags unless they are of one text.
        for line in file.lines() {
            let ends = line.matches("</").count();
            assert!(line.matches('<').count() - ends <= 1 && ends <= 1, "{line}");
        }
    });
}

#[test]
fn the_smallest_file_reads_well() {
    let file = svg(&network(2, 0, |u, _| u == 0), &named(&["Oslo"]), None, None);
    assert_eq!(file, include_str!("tests/small.svg"));
}

#[test]
fn lengths_have_one_decimal() {
    let lengths = ["x", "y", "x1", "y1", "x2", "y2", "cx", "cy", "r"];
    each_picture(|network, names, mark, load| {
        let root = xml::read(&svg(network, names, mark, load));
        let attributes = root
            .all()
            .into_iter()
            .flat_map(|element| &element.attributes);
        for (_, value) in attributes.filter(|(name, _)| lengths.contains(&name.as_str())) {
            let (whole, decimals) = value.split_once('.').expect("a point");
            assert!(
                whole.parse::<u16>().is_ok() && decimals.len() == 1,
                "{value}"
            );
        }
    });
}

/// How many pairs of offices have links both ways, and how many one way only.
fn pairs(network: &Network) -> (usize, usize) {
    let both = |u: u8, v: u8| network.linked(u, v) && network.linked(v, u);
    let of = |u: u8| (0..u).filter(move |v| both(u, *v)).count();
    let two_way = (0..network.n).map(of).sum();
    let links: usize = network.rows.iter().map(|row| row.len()).sum();
    (two_way, links - 2 * two_way)
}

#[test]
fn every_link_is_drawn_once() {
    each_picture(|network, names, mark, load| {
        let root = xml::read(&svg(network, names, mark, load));
        let links = root.of_class("links");
        let (two_way, one_way) = pairs(network);
        assert_eq!(links.named("line").len(), two_way + one_way);
        assert_eq!(links.named("polygon").len(), one_way);
        let circles = root.of_class("offices").named("circle");
        assert_eq!(circles.len(), usize::from(network.n));
    });
}

#[test]
fn arrows_point_to_the_office_that_hears() {
    for network in (2..=8).flat_map(networks) {
        for link in links::of(&network, None) {
            let back = network.linked(link.to, link.from);
            assert!(network.linked(link.from, link.to));
            assert_eq!(back, link.ways == Ways::Both, "{link:?}");
        }
    }
}

fn distance(one: Point, other: Point) -> f64 {
    let (dx, dy) = (one.x - other.x, one.y - other.y);
    (dx * dx + dy * dy).sqrt()
}

/// Points along a link, less than two units apart, head included.
fn along(stroke: &Stroke) -> Vec<Point> {
    let end = stroke.head.map_or(stroke.to, |head| head[0]);
    let steps = 250;
    let at = |i| {
        let part = f64::from(i) / f64::from(steps);
        let (dx, dy) = (end.x - stroke.from.x, end.y - stroke.from.y);
        stroke.from.plus(part * dx, part * dy)
    };
    (0..=steps).map(at).collect()
}

#[test]
fn links_lead_from_edge_to_edge_and_cross_no_circle() {
    each_picture(|network, names, mark, load| {
        let page = placed(network, names, mark, load);
        let links = links::of(network, mark);
        assert_eq!(links.len(), page.links.len());
        for (link, stroke) in links.iter().zip(&page.links) {
            let [from, to] = [link.from, link.to].map(|i| &page.offices[usize::from(i)]);
            let end = stroke.head.map_or(stroke.to, |head| head[0]);
            let [start_gap, end_gap] = [(from, stroke.from), (to, end)]
                .map(|(office, point)| distance(office.centre, point) - office.radius);
            assert!((start_gap - OUTLINE / 2.0).abs() < 1e-6);
            assert!(end_gap > OUTLINE / 2.0 - 1e-6 && end_gap < 3.0);
            for office in &page.offices {
                let is_clear = |point: &Point| distance(office.centre, *point) >= office.radius;
                assert!(along(stroke).iter().all(is_clear));
            }
        }
    });
}

/// Whether two triangles have a straight line between them along a side of one of them.
fn are_apart(one: &[Point; 3], other: &[Point; 3]) -> bool {
    let separates = |one: &[Point; 3], other: &[Point; 3], i: usize| {
        let [a, b, c] = [one[i], one[(i + 1) % 3], one[(i + 2) % 3]];
        let side = |p: Point| (b.x - a.x) * (p.y - a.y) - (b.y - a.y) * (p.x - a.x);
        other.iter().all(|p| side(*p) * side(c) < 0.0)
    };
    (0..3).any(|i| separates(one, other, i) || separates(other, one, i))
}

#[test]
fn arrow_heads_are_clear_of_each_other_and_of_circles() {
    each_picture(|network, names, mark, load| {
        let page = placed(network, names, mark, load);
        let heads: Vec<[Point; 3]> = page.links.iter().filter_map(|link| link.head).collect();
        for (i, head) in heads.iter().enumerate() {
            assert!(heads[..i].iter().all(|other| are_apart(head, other)));
            for office in &page.offices {
                let is_clear = |p: &Point| distance(office.centre, *p) > office.radius;
                assert!(head.iter().all(is_clear));
            }
        }
    });
}

/// The room of all texts and squares of a page.
fn written(page: &Page) -> Vec<Frame> {
    let names = page.offices.iter().flat_map(|office| &office.beside);
    let labels = names
        .chain(&page.legend.words)
        .chain([&page.title, &page.verdict]);
    let badges = page
        .offices
        .iter()
        .filter_map(|office| office.badge.as_ref());
    let badges = badges.chain(&page.legend.badges);
    labels
        .map(Label::frame)
        .chain(badges.map(Badge::frame))
        .collect()
}

/// The room of all circles of a page.
fn circles(page: &Page) -> Vec<Frame> {
    let in_legend = page.legend.circles.iter().map(|&(centre, radius)| Spot {
        centre,
        radius,
        badge: None,
        beside: Vec::new(),
    });
    let offices = page.offices.iter().cloned();
    offices.chain(in_legend).map(|spot| spot.circle()).collect()
}

#[test]
fn everything_is_on_the_canvas() {
    each_picture(|network, names, mark, load| {
        let page = placed(network, names, mark, load);
        let circles = circles(&page);
        for frame in written(&page).into_iter().chain(circles) {
            assert!(frame.left >= 0.0 && frame.right <= page.width, "{frame:?}");
            assert!(frame.top >= 0.0 && frame.bottom <= page.height, "{frame:?}");
        }
    });
}

/// Frames that only touch do not overlap.
fn overlap(one: &Frame, other: &Frame) -> bool {
    let is_before = |end: f64, start: f64| end < start + 1e-6;
    !is_before(one.right, other.left)
        && !is_before(other.right, one.left)
        && !is_before(one.bottom, other.top)
        && !is_before(other.bottom, one.top)
}

#[test]
fn nothing_lies_on_a_text() {
    each_picture(|network, names, mark, load| {
        let page = placed(network, names, mark, load);
        let (written, circles) = (written(&page), circles(&page));
        for (i, frame) in written.iter().enumerate() {
            let is_clear = |other: &Frame| !overlap(frame, other);
            assert!(written[..i].iter().all(is_clear), "{frame:?}");
            assert!(circles.iter().all(is_clear));
            let is_outside = |p: &Point| {
                p.x < frame.left || p.x > frame.right || p.y < frame.top || p.y > frame.bottom
            };
            assert!(page
                .links
                .iter()
                .all(|link| along(link).iter().all(is_outside)));
        }
    });
}

#[test]
fn a_bold_title_fits() {
    // Bold letters are up to a fifth wider than others.
    let bold = 1.2;
    for network in (2..=8).flat_map(networks) {
        let page = placed(&network, &Names::default(), None, None);
        assert!(page.title.frame().right * bold < page.width);
    }
}

/// The letters in an element, in order.
fn letters(element: &Element) -> String {
    let is_bold = |text: &&Element| text.attribute("font-weight") == Some("bold");
    let signs = element.named("text").into_iter().filter(is_bold);
    signs
        .map(|sign| sign.text.as_str())
        .filter(|sign| sign.parse::<u8>().is_err())
        .collect()
}

#[test]
fn each_office_has_the_letter_of_its_set() {
    each_picture(|network, names, mark, load| {
        let root = xml::read(&svg(network, names, mark, load));
        let of = |office| mark.and_then(|mark| Part::of(office, &mark));
        let expected: String = (0..network.n).filter_map(of).map(Part::letter).collect();
        assert_eq!(letters(root.of_class("offices")), expected);
        let has_office = |part: &Part| expected.contains(part.letter());
        let in_legend: String = Part::ALL
            .iter()
            .filter(|p| has_office(p))
            .map(|p| p.letter())
            .collect();
        assert_eq!(letters(root.of_class("legend")), in_legend);
    });
}

/// The legend as the picture shows it, lines joined.
fn legend_of(network: &Network, names: &Names, mark: Option<Mark>) -> Vec<String> {
    let content = content(network, names, mark, None);
    let rows = content.legend.into_iter();
    rows.map(|row| row.text.replace('\u{a0}', " ")).collect()
}

#[test]
fn a_bad_split_is_explained() {
    let (network, split) = two_regions();
    let expected = [
        words::TWO_WAY,
        words::THICK,
        "Offices 1 2 and offices 4 (New York), 5 could be split, for this reason:",
        "Offices 0 3 are on neither side.",
        "Offices 1 2 hear, of all others, only office 0: no more than the one that may fail, \
         so that all they hear from outside may be false.",
        "Offices 4 (New York), 5 hear, of all others, only office 3: no more than the one that \
         may fail, so that all they hear from outside may be false.",
        "So L could show open while R shows closed, and no plan can help.",
    ];
    let names = Names::new(vec![None, None, None, None, Some("New York".to_string())]);
    let split = Some(Mark::Split(split));
    assert_eq!(legend_of(&network, &names, split), expected);
}

#[test]
fn a_bad_split_with_failing_offices_is_explained() {
    let network = network(7, 2, |u, v| {
        u < 2 || v < 2 || [(5, 6), (6, 5), (3, 4)].contains(&(u, v))
    });
    let [f, l, c, r] = [set(&[0, 1]), set(&[5]), set(&[3, 4, 6]), set(&[2])];
    let expected = [
        words::TWO_WAY,
        words::ONE_WAY,
        words::THICK,
        words::DASHED,
        "Office 5 and office 2 could be split, for this reason:",
        "Offices 0 1 may fail, and are left out.",
        "Offices 3 4 6 are on neither side.",
        "Leaving out F, office 5 hears, of all others, only office 6: no more than the two that \
         may fail instead of F, so that all it hears from outside may be false.",
        "Leaving out F, office 2 hears none of the others, so nothing from outside can put it right.",
        "So L could show open while R shows closed, and no plan can help.",
    ];
    let split = Some(Mark::Split(Split { f, l, c, r }));
    assert_eq!(legend_of(&network, &Names::default(), split), expected);
}

#[test]
fn offices_to_be_taken_away_are_explained() {
    // All links but that between 0 and 4, and a row.
    let nearly_all = network(5, 1, |u, v| u + v != 4 || u.min(v) > 0);
    let names = Names::new(vec![None, None, None, None, Some("New York".to_string())]);
    let mark = apart(&nearly_all).map(Mark::Apart);
    let expected = [
        words::TWO_WAY,
        words::TAKEN,
        "Two-way site: 3 offices must be taken away before the rest falls apart, and the older \
         rule wants at least 3.",
        "Taking away offices 1 2 3 leaves office 0 apart from office 4 (New York).",
    ];
    assert_eq!(legend_of(&nearly_all, &names, mark), expected);
    let row = network(4, 0, |u, v| u.abs_diff(v) == 1);
    let mark = apart(&row).map(Mark::Apart);
    let expected = [
        words::TWO_WAY,
        words::TAKEN,
        "Two-way site: 1 office must be taken away before the rest falls apart, and the older \
         rule wants at least 1.",
        "Taking away office 1 leaves office 0 apart from offices 2 3.",
    ];
    assert_eq!(legend_of(&row, &Names::default(), mark), expected);
    let content = content(&row, &Names::default(), mark, None);
    let expected = [
        "Offices 0 1 2 3 in a ring.",
        "Two-way links: 0 and 1, 1 and 2, 2 and 3.",
        "The offices can agree, as long as none of them fails.",
        expected[2],
        "K: Taking away office 1 leaves office 0 apart from offices 2 3.",
    ];
    assert_eq!(content.description, expected);
}

/// What a link has to do with a bad split, from the incoming neighbours of its sides.
fn weight(network: &Network, split: &Split, link: &Link) -> Weight {
    let hears = |side: ServerSet, u, v| {
        let heard = network.incoming(side) - split.f;
        network.linked(u, v) && heard.contains(u) && side.contains(v)
    };
    let ends = set(&[link.from, link.to]);
    let directions = [(link.from, link.to), (link.to, link.from)];
    let is_heard = |(u, v)| hears(split.l, u, v) || hears(split.r, u, v);
    if !(ends & split.f).is_empty() {
        Weight::LeftOut
    } else if directions.into_iter().any(is_heard) {
        Weight::Heard
    } else {
        Weight::Plain
    }
}

#[test]
fn links_are_weighed_by_what_the_sides_hear() {
    each_picture(|network, _, mark, _| {
        for link in links::of(network, mark) {
            let expected = match mark {
                Some(Mark::Split(split)) => weight(network, &split, &link),
                // A link within a part that is left stays, and none leads from one to the other.
                Some(Mark::Apart(Apart { one, other, .. })) => {
                    let ends = set(&[link.from, link.to]);
                    match ends.is_within(one) || ends.is_within(other) {
                        true => Weight::Plain,
                        false => Weight::Taken,
                    }
                }
                None => Weight::Plain,
            };
            assert_eq!(link.weight, expected, "{link:?}");
        }
    });
}

#[test]
fn titles_and_verdicts_read_well() {
    let of = |n, f| {
        let network = network(n, f, |_, _| true);
        (words::title(&network), words::verdict(&network, false))
    };
    let expected = [
        (
            "2 offices, none may fail",
            "The offices can agree, as long as none of them fails.",
        ),
        (
            "5 offices, at most 1 may fail",
            "The offices can agree, whichever one of them fails.",
        ),
        (
            "8 offices, at most 2 may fail",
            "The offices can agree, whichever two of them fail.",
        ),
    ];
    let expected = expected.map(|(title, verdict)| (title.to_string(), verdict.to_string()));
    assert_eq!([of(2, 0), of(5, 1), of(8, 2)], expected);
}

/// The offices' circles, by their radii as they are written, and the lines beside them.
fn drawn(network: &Network, load: Option<Load>) -> (Vec<String>, Vec<String>) {
    let root = xml::read(&svg(network, &Names::default(), None, load));
    let offices = root.of_class("offices");
    let radius = |circle: &Element| circle.attribute("r").expect("a radius").to_string();
    let beside = |text: &&Element| text.attribute("font-weight").is_none();
    (
        offices.named("circle").into_iter().map(radius).collect(),
        offices
            .named("text")
            .into_iter()
            .filter(beside)
            .map(|text| text.text.clone())
            .collect(),
    )
}

#[test]
fn relays_are_drawn_by_their_load() {
    let network = network(4, 1, |_, _| true);
    let load = |routes| Some(Load { routes });
    let small = vec!["26.0".to_string(); 4];
    assert_eq!(drawn(&network, None), (small.clone(), Vec::new()));
    // Where nobody relays there is nothing to tell apart.
    assert_eq!(drawn(&network, load([0; 8])), (small, Vec::new()));
    let (radii, beside) = drawn(&network, load([1_600, 400, 0, 800, 0, 0, 0, 0]));
    assert_eq!(radii, ["44.0", "31.5", "26.0", "36.1"]);
    assert_eq!(
        beside,
        ["relays 1,600", "relays 400", "relays 0", "relays 800"]
    );
    // As large as the widest of them, whatever its number.
    let (radii, _) = drawn(&network, load([16, 4, 0, 8, 0, 0, 0, 0]));
    assert_eq!(radii, ["44.0", "31.5", "26.0", "36.1"]);
}

#[test]
fn the_load_is_explained() {
    let row = network(3, 0, |u, v| u.abs_diff(v) == 1);
    let names = Names::new(vec![None, Some("New York".to_string())]);
    let told = |mark, routes| {
        let load = Some(Load { routes });
        let Content {
            legend,
            description,
            ..
        } = content(&row, &names, mark, load);
        let legend: Vec<String> = legend.into_iter().map(|row| row.text).collect();
        (legend, description.last().cloned().unwrap_or_default())
    };
    let (legend, last) = told(None, [0, 12, 1, 0, 0, 0, 0, 0]);
    assert_eq!(legend, [words::TWO_WAY, words::SIZES]);
    assert_eq!(
        last.replace('\u{a0}', " "),
        "Office 1 (New York) relays 12 routes, office 2 relays 1 route, office 0 relays 0 routes."
    );
    let (legend, last) = told(None, [0; 8]);
    assert_eq!(legend, [words::TWO_WAY, words::NO_RELAYS]);
    assert_eq!(last, words::NO_RELAYS);
    // Before what is marked, which goes on to the end of the legend.
    let (legend, _) = told(apart(&row).map(Mark::Apart), [0, 12, 1, 0, 0, 0, 0, 0]);
    assert_eq!(legend[..3], [words::TWO_WAY, words::TAKEN, words::SIZES]);
    assert_eq!(legend.len(), 5);
}

#[test]
fn a_network_without_links_says_so() {
    let network = network(3, 0, |_, _| false);
    assert_eq!(
        legend_of(&network, &Names::default(), None),
        [words::NO_LINKS]
    );
}

#[test]
fn the_description_tells_the_whole_picture() {
    let network = network(3, 0, |u, v| u == 0 || (u, v) == (1, 0));
    let content = content(&network, &named(&["Oslo"]), None, None);
    let expected = [
        "Offices 0 (Oslo), 1, 2 in a ring.",
        "Two-way links: 0 and 1.",
        "One-way links: 0 to 2.",
        "The offices can agree, as long as none of them fails.",
    ];
    assert_eq!(content.description, expected);
}
