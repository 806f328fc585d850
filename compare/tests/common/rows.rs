//! The rows of a table that is printed as an antt module.

/// Each with its group's name; of the record what follows its opening, up to its end.
pub fn rows<'a>(module: &'a str, opening: &str) -> Vec<(&'a str, &'a str)> {
    let mut group = "";
    let mut rows = Vec::new();
    for line in module.lines() {
        group = line.strip_suffix(" =").unwrap_or(group);
        if let Some((_, row)) = line.split_once(opening) {
            rows.push((group, row.strip_suffix(" }").unwrap()));
        }
    }
    rows
}
