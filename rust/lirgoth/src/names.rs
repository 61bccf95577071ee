//! Offices in words: by their numbers, and by their names where a chart gives names.

use agreement::ServerSet;

/// The names of a site's offices. An office without a name goes by its number.
#[derive(Debug, Clone, Default, PartialEq, Eq)]
pub struct Names(Vec<Option<String>>);

impl Names {
    pub fn new(names: Vec<Option<String>>) -> Names {
        Names(names)
    }

    /// The name of one office.
    pub fn name(&self, office: u8) -> Option<&str> {
        self.0.get(usize::from(office))?.as_deref()
    }

    /// The name of one office, or its number.
    pub fn called(&self, office: u8) -> String {
        match self.name(office) {
            Some(name) => name.to_string(),
            None => office.to_string(),
        }
    }

    /// `office 4`, or `office 4 (Hamburg)`.
    pub fn office(&self, office: u8) -> String {
        format!("office {}", self.short(office))
    }

    /// `office 4`, `offices 0 1`, with names where there are any, or `no office`.
    pub fn offices(&self, set: ServerSet) -> String {
        match set.len() {
            0 => "no office".to_string(),
            1 => format!("office {}", self.list(set)),
            _ => format!("offices {}", self.list(set)),
        }
    }

    /// `0 1`, with names `0 (Oslo), 1`, or `none`.
    pub fn list(&self, set: ServerSet) -> String {
        if set.is_empty() {
            return "none".to_string();
        }
        let offices: Vec<String> = set.iter().map(|office| self.short(office)).collect();
        let named = set.iter().any(|office| self.name(office).is_some());
        offices.join(if named { ", " } else { " " })
    }

    fn short(&self, office: u8) -> String {
        match self.name(office) {
            Some(name) => format!("{office} ({name})"),
            None => office.to_string(),
        }
    }
}

#[cfg(test)]
mod tests {
    use super::*;

    #[test]
    fn offices_go_by_number_and_name() {
        let names = Names::new(vec![None, Some("Hamburg".to_string())]);
        let set = ServerSet::from_bits;
        assert_eq!(names.office(0), "office 0");
        assert_eq!(names.office(1), "office 1 (Hamburg)");
        assert_eq!(names.office(7), "office 7");
        assert_eq!(names.offices(set(0)), "no office");
        assert_eq!(names.offices(set(2)), "office 1 (Hamburg)");
        assert_eq!(names.offices(set(3)), "offices 0, 1 (Hamburg)");
        assert_eq!(names.offices(set(5)), "offices 0 2");
        assert_eq!(names.list(set(0)), "none");
    }
}
