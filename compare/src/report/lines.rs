//! The lines of a report: a name, and numbers with one space before each.

use crate::fault::{quoted, Fault};

pub struct Line<'a> {
    pub number: usize,
    pub name: &'a str,
    /// Nothing, or a space and the numbers.
    rest: Option<&'a str>,
}

pub struct Lines<'a> {
    rest: &'a str,
    /// Of the line that comes next.
    number: usize,
}

impl<'a> Lines<'a> {
    pub fn new(text: &'a str) -> Lines<'a> {
        Lines { rest: text, number: 1 }
    }

    /// `due` names the line for the message that there is none.
    pub fn next(&mut self, due: &str) -> Result<Line<'a>, Fault> {
        let number = self.number;
        if self.rest.is_empty() {
            let says = format!("the text ends where a line '{due} ..' is due");
            return Err(Fault::new(number, says));
        }
        let Some((line, rest)) = self.rest.split_once('\n') else {
            return Err(Fault::new(number, "no line feed ends the line"));
        };
        (self.rest, self.number) = (rest, number + 1);
        let (name, rest) = line.split_once(' ').map_or((line, None), |(n, r)| (n, Some(r)));
        Ok(Line { number, name, rest })
    }

    pub fn finish(&self) -> Result<(), Fault> {
        match self.rest {
            "" => Ok(()),
            _ => Err(Fault::new(self.number, "the report has ended, and the text goes on")),
        }
    }
}

impl Line<'_> {
    pub fn fault(&self, says: impl Into<String>) -> Fault {
        Fault::new(self.number, says)
    }

    /// The numbers of a line that has this name and so many of them.
    pub fn fields<const COUNT: usize>(&self, name: &str) -> Result<[i64; COUNT], Fault> {
        let numbers = self.numbers(name)?;
        let says = format!("numbers of '{name}': {}, not {COUNT}", numbers.len());
        numbers.try_into().map_err(|_| self.fault(says))
    }

    pub fn mask_and_cells(&self) -> Result<(i64, Vec<i64>), Fault> {
        let mut numbers = self.numbers("group")?;
        if numbers.is_empty() {
            return Err(self.fault("a group without a mask"));
        }
        let cells = numbers.split_off(1);
        Ok((numbers[0], cells))
    }

    fn numbers(&self, name: &str) -> Result<Vec<i64>, Fault> {
        if self.name != name {
            let says = format!("a line '{name} ..' is due, not {}", quoted(self.name));
            return Err(self.fault(says));
        }
        let words = self.rest.into_iter().flat_map(|rest| rest.split(' '));
        words.map(|word| whole(word).map_err(|says| self.fault(says))).collect()
    }
}

/// A number is printed in one way only: no plus sign, no needless zero.
fn whole(word: &str) -> Result<i64, String> {
    let number = word.parse().ok().filter(|number: &i64| number.to_string() == word);
    number.ok_or_else(|| format!("{} is no number as the program prints it", quoted(word)))
}
