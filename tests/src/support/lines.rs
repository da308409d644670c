//! Lines of feeds and loads, in decimal numbers.

/// A feed of each pick.
pub fn feeds(picks: &[u8]) -> String {
    picks.iter().map(|pick| format!("feed {pick}\n")).collect()
}

/// A load of this table.
pub fn load(table: &[u8]) -> String {
    let bytes: String = table.iter().map(|byte| format!(" {byte}")).collect();
    format!("load{bytes}\n")
}
