//! Refusals of a card in words.

use super::{cut, too_long, trailing};
use agreement::{CardGround, CARD_LIMIT};

const HEAD: u8 = 0x01;
const LINK: u8 = 0x02;
const END: u8 = 0x03;

fn operands(command: u8) -> Option<usize> {
    match command {
        HEAD | LINK => Some(2),
        END => Some(0),
        _ => None,
    }
}

/// Why the card is refused on that ground at that place.
pub(super) fn why(ground: CardGround, place: usize, card: &[u8]) -> Option<String> {
    match ground {
        CardGround::TooLong => Some(too_long(card, CARD_LIMIT, "card")),
        CardGround::Cut => Some(cut(card, place, operands, "card")),
        CardGround::Trailing => Some(trailing(card, place)),
        CardGround::Head if place == 0 => {
            let command = card.first()?;
            Some(format!(
                "a card begins with 01, and this one with {command:02X}"
            ))
        }
        CardGround::Head => Some("01 stands at the beginning only, and here again".to_string()),
        CardGround::Range => range(card, place),
    }
}

fn range(card: &[u8], place: usize) -> Option<String> {
    let &[command, one, other] = card.get(place..place + 3)? else {
        return None;
    };
    if command == HEAD {
        return Some(match (one, other) {
            (2..=8, f) => format!("{f} offices may fail, and f is 0 to 2"),
            (n, _) => format!("{n} offices, and there can be 2 to 8"),
        });
    }
    let last = card.get(1)?.checked_sub(1)?;
    let link = format!("link {one} → {other}");
    Some(if one > last || other > last {
        let stranger = if one > last { one } else { other };
        format!("{link}: there is no office {stranger}, offices are 0 to {last}")
    } else {
        format!("{link}: a link from an office to itself")
    })
}
