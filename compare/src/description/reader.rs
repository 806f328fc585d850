//! Line by line, up to the first fault.

use super::numbers::whole;
use super::point::equal;
use super::{fields, Description, Equal};
use crate::fault::Fault;

pub fn read(text: &[u8]) -> Result<Description, Fault> {
    let text = plain(text);
    let (mut reader, mut last) = (Reader::default(), 1);
    for (number, line) in (1..).zip(text.lines()) {
        let taken = fields::words(line).and_then(|words| reader.take(&words));
        taken.map_err(|says| Fault::new(number, says))?;
        last = number;
    }
    reader.finish().map_err(|says| Fault::new(last, says))
}

/// Without a byte order mark, and every line ended by a line feed. Comments may be in
/// any encoding.
fn plain(text: &[u8]) -> String {
    let text = String::from_utf8_lossy(text);
    let text = text.strip_prefix('\u{feff}').unwrap_or(&text);
    text.replace("\r\n", "\n").replace('\r', "\n")
}

#[derive(Default)]
struct Reader {
    lengths: Option<Vec<u16>>,
    p: Option<u8>,
    points: Vec<Equal>,
}

type Taken = Result<(), String>;

impl Reader {
    fn take(&mut self, words: &[&str]) -> Taken {
        // A spreadsheet may begin words with a capital.
        let named = |name: &str| words.first().is_some_and(|word| word.eq_ignore_ascii_case(name));
        if named("lengths") {
            self.take_lengths(&words[1..])
        } else if named("p") {
            self.take_p(&words[1..])
        } else {
            words.iter().try_for_each(|word| self.take_points(word))
        }
    }

    /// None at all make a tape too, though one that is refused.
    fn take_lengths(&mut self, words: &[&str]) -> Taken {
        if self.lengths.is_some() {
            return Err("'lengths' stands twice".to_string());
        }
        let length = |word: &&str| whole(word, "a length", 0..=65_535).map(|length| length as u16);
        self.lengths = Some(words.iter().map(length).collect::<Result<_, _>>()?);
        Ok(())
    }

    fn take_p(&mut self, words: &[&str]) -> Taken {
        if self.p.is_some() {
            return Err("'p' stands twice".to_string());
        }
        let &[word] = words else {
            return Err(format!("'p' takes one number, not {}", words.len()));
        };
        self.p = Some(whole(word, "p", 0..=255)? as u8);
        Ok(())
    }

    fn take_points(&mut self, word: &str) -> Taken {
        let equal = equal(word)?;
        self.is_opened("before the points")?;
        match self.points.last_mut() {
            Some(last) if last.point == equal.point => last.count += equal.count,
            _ => self.points.push(equal),
        }
        Ok(())
    }

    fn is_opened(&self, place: &str) -> Taken {
        match (&self.lengths, self.p) {
            (None, _) => Err(format!("no line 'lengths ..' {place}")),
            (_, None) => Err(format!("no line 'p ..' {place}")),
            _ => Ok(()),
        }
    }

    fn finish(self) -> Result<Description, String> {
        self.is_opened("in the text")?;
        let (lengths, p) = (self.lengths.unwrap_or_default(), self.p.unwrap_or_default());
        Ok(Description { lengths, p, points: self.points })
    }
}
