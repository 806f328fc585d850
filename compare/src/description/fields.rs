//! The words of a line: commas and semicolons part its fields, blanks the words of a
//! field, and `#` starts a comment.

const GAP: &str = "a field is empty before one that is not; a point that was not shot is 0";
const OPEN: &str = "a quote does not end on its line";

/// Spreadsheets leave empty fields at the end of a line. Before another field one would
/// shift the points that follow.
pub fn words(line: &str) -> Result<Vec<&str>, String> {
    let (mut words, mut gap) = (Vec::new(), false);
    for field in fields(line)? {
        let own = words_of(field);
        if gap && !own.is_empty() {
            return Err(GAP.to_string());
        }
        gap |= own.is_empty();
        words.extend(own);
    }
    Ok(words)
}

/// The fields up to the comment, quotes still around them.
fn fields(line: &str) -> Result<Vec<&str>, String> {
    let (mut fields, mut start, mut quoted) = (Vec::new(), 0, false);
    for (at, letter) in line.char_indices() {
        match letter {
            '"' => quoted = !quoted,
            '#' if !quoted => {
                fields.push(&line[start..at]);
                return Ok(fields);
            }
            '#' if opens(&line[start..at]) => return Ok(fields),
            ',' | ';' if !quoted => {
                fields.push(&line[start..at]);
                start = at + 1;
            }
            _ => {}
        }
    }
    fields.push(&line[start..]);
    if quoted {
        return Err(OPEN.to_string());
    }
    Ok(fields)
}

/// Nothing but a quote: a comment with a comma in it comes quoted from a spreadsheet.
fn opens(field: &str) -> bool {
    field.trim_matches(|letter: char| letter == '"' || letter.is_whitespace()).is_empty()
}

/// What is quoted is one word, so that "1,234" is not read as two points.
fn words_of(field: &str) -> Vec<&str> {
    let field = field.trim();
    match field.strip_prefix('"').and_then(|rest| rest.strip_suffix('"')) {
        Some(word) if word.trim().is_empty() => Vec::new(),
        Some(word) => vec![word.trim()],
        None => field.split_whitespace().collect(),
    }
}
