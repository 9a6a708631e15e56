//! The text of a yard: a line for the yard, one for the stations at rest if there are any, then a
//! line for each link.
//!
//! ```text
//! stations 3 ceilings 1
//! resting 1
//! 0 1 4 7   # two stations, a sum, a cost for each ceiling
//! ```

use crate::figures::counted;
use ranqustei::{Cause, Link, Survey, Yard, YardError, CEILINGS};
use std::fmt;
use std::str::FromStr;

/// The line of the yard; a yard may have fewer ceilings.
const HEAD_FORM: &str = "`stations N ceilings K1 K2 K3`";
/// The word before the stations at rest.
const RESTING: &str = "resting";
/// What a station is.
const STATION: &str = "a station is a number from 0 to 23";

/// What is wrong with a text, and in which line, counted from 1.
#[derive(Clone, PartialEq, Eq, Debug)]
pub struct LineError {
    /// The line.
    pub line: usize,
    /// What is wrong.
    pub message: String,
}

impl LineError {
    fn new(line: usize, message: impl fmt::Display) -> LineError {
        LineError {
            line,
            message: message.to_string(),
        }
    }
}

/// The survey of the yard that a text describes.
pub fn read(text: &[u8]) -> Result<Survey, LineError> {
    let text = utf8(text)?;
    let mut lines = filled_lines(text).peekable();
    let Some((head, words)) = lines.next() else {
        return Err(LineError::new(
            1,
            format!("the text has no line {HEAD_FORM}"),
        ));
    };
    let (stations, ranks) = read_head(&words).map_err(|message| LineError::new(head, message))?;
    let mut places = Places {
        head,
        resting: head,
        links: Vec::new(),
    };
    let mut resting = Vec::new();
    if let Some((line, words)) = lines.next_if(|(_, words)| words.first() == Some(&RESTING)) {
        let read = read_resting(&words);
        resting = read.map_err(|message| LineError::new(line, message))?;
        places.resting = line;
    }
    let mut links = Vec::new();
    for (line, words) in lines {
        let link = read_link(&words, ranks.len());
        links.push(link.map_err(|message| LineError::new(line, message))?);
        places.links.push(line);
    }
    let yard = Yard::new(stations, ranks, links).with_resting(resting);
    yard.survey()
        .map_err(|error| LineError::new(places.of(&error), error))
}

/// The text of a yard. Reading it back gives the same yard.
pub fn write(yard: &Yard) -> String {
    let mut text = format!("stations {}", yard.stations);
    if !yard.ranks.is_empty() {
        text += " ceilings";
    }
    for rank in &yard.ranks {
        text += &format!(" {rank}");
    }
    text += "\n";
    if !yard.resting.is_empty() {
        let stations = yard.resting.iter().map(|station| format!(" {station}"));
        text += &format!("{RESTING}{}\n", stations.collect::<String>());
    }
    for (number, link) in yard.links.iter().enumerate() {
        let [a, b] = link.ends;
        text += &format!("{a} {b} {}", link.sum);
        for cost in &link.costs {
            text += &format!(" {cost}");
        }
        text += &format!("  # link {number}\n");
    }
    text
}

fn utf8(text: &[u8]) -> Result<&str, LineError> {
    std::str::from_utf8(text).map_err(|error| {
        let before = text.iter().take(error.valid_up_to());
        let line = 1 + before.filter(|&&byte| byte == b'\n').count();
        LineError::new(line, "the line is no UTF-8 text")
    })
}

/// The lines that hold words, with their numbers; a comment holds none.
fn filled_lines(text: &str) -> impl Iterator<Item = (usize, Vec<&str>)> {
    let lines = text
        .lines()
        .map(|line| line.split('#').next().unwrap_or_default());
    let words = lines.map(|line| line.split_whitespace().collect::<Vec<_>>());
    (1..).zip(words).filter(|(_, words)| !words.is_empty())
}

/// The stations and the ranks.
fn read_head(words: &[&str]) -> Result<(u8, Vec<u8>), String> {
    let (stations, ranks) = match *words {
        ["stations", stations] => (stations, [].as_slice()),
        ["stations", stations, "ceilings", ref ranks @ ..] => (stations, ranks),
        _ => {
            let found = words.join(" ");
            return Err(format!("the first line is {HEAD_FORM}: found `{found}`"));
        }
    };
    if ranks.len() > CEILINGS {
        let found = ranks.len();
        return Err(format!(
            "a yard has at most {CEILINGS} ceilings: found {found} ranks"
        ));
    }
    let stations = figure(stations, "the number of stations is a number from 1 to 24")?;
    let rank = |word: &&str| figure(word, "a rank is a number from 1 to 3");
    Ok((stations, ranks.iter().map(rank).collect::<Result<_, _>>()?))
}

/// The stations at rest.
fn read_resting(words: &[&str]) -> Result<Vec<u8>, String> {
    let stations = words.iter().skip(1);
    stations.map(|word| figure(word, STATION)).collect()
}

fn read_link(words: &[&str], ceilings: usize) -> Result<Link, String> {
    let (a, b, sum, costs) = match *words {
        [RESTING, ..] => return Err(format!("a line `{RESTING}` comes second, before the links")),
        [a, b, sum, ref costs @ ..] if costs.len() == ceilings => (a, b, sum, costs),
        _ => {
            let (need, found) = (link_need(ceilings), counted(words.len(), "number"));
            return Err(format!("a link needs {need}: found {found}"));
        }
    };
    let end = |word| figure(word, STATION);
    let cost = |word: &&str| figure(word, "a ceiling cost is a number from -32768 to 32767");
    let ends = [end(a)?, end(b)?];
    let sum = figure(sum, "a sum is a number from -1000000 to 1000000")?;
    let costs: Vec<i16> = costs.iter().map(cost).collect::<Result<_, _>>()?;
    Ok(Link::new(ends, sum, costs))
}

fn link_need(ceilings: usize) -> String {
    let costs = counted(ceilings, "ceiling cost");
    match ceilings {
        0 => "two stations and a sum".to_string(),
        _ => format!("two stations, a sum and {costs}"),
    }
}

fn figure<T: FromStr>(word: &str, rule: &str) -> Result<T, String> {
    word.parse().map_err(|_| format!("{rule}: found `{word}`"))
}

/// The lines of a yard.
struct Places {
    /// That of the yard.
    head: usize,
    /// That of the stations at rest; that of the yard if there is none.
    resting: usize,
    /// That of each link.
    links: Vec<usize>,
}

impl Places {
    /// The line that an error speaks of.
    fn of(&self, error: &YardError) -> usize {
        let link = match error {
            YardError::Resting { .. } => return self.resting,
            YardError::Refused(refusal) if refusal.cause() == Cause::Resting => {
                return self.resting
            }
            YardError::Refused(refusal) => refusal.link().map(usize::from),
            YardError::Costs { link, .. } => Some(*link),
            _ => None,
        };
        let line = link.and_then(|link| self.links.get(link));
        line.copied().unwrap_or(self.head)
    }
}
