//! The words of a clause, and the values that names of a table represent.
use gen1::generated::machine::{Kind, Side, UsedMove};
use gen1::generated::stats::Status;
use gen1::generated::tables::Element::{
    self, Bug, Dragon, Electric, Fighting, Fire, Flying, Ghost, Grass, Ground, Ice, Normal, Poison,
    Psychic, Rock, Water,
};
use gen1::generated::tables::{MoveId, Stat};
use std::fmt;

/// A clause can't be read: a word or a number is not one that it can have.
#[derive(Clone, Copy, Debug)]
pub(crate) struct Unread;

/// A row of a table: its values, and the names that represent them.
#[derive(Clone, Copy, Debug)]
pub(crate) struct Row<'a> {
    names: &'a str,
    values: &'a str,
}

impl<'a> Row<'a> {
    pub(crate) fn new(names: &'a str, values: &'a str) -> Row<'a> {
        Row { names, values }
    }

    // What a text represents: itself, or the value of a name.
    fn value(self, text: &'a str) -> &'a str {
        match text.strip_prefix('$') {
            None => text,
            Some(name) => self.named(name),
        }
    }

    fn named(self, wanted: &'a str) -> &'a str {
        for (name, value) in self.names.split('|').zip(self.values.split('|')) {
            if name.trim() == wanted {
                return value.trim();
            }
        }
        "no such name"
    }
}

/// A clause with its line and its row, as a failure names it.
#[derive(Clone, Copy)]
pub(crate) struct Clause<'a> {
    line: &'a str,
    words: Words<'a>,
}

impl<'a> Clause<'a> {
    pub(crate) fn new(line: &'a str, words: Words<'a>) -> Clause<'a> {
        Clause { line, words }
    }
}

impl fmt::Display for Clause<'_> {
    fn fmt(&self, f: &mut fmt::Formatter<'_>) -> fmt::Result {
        let Words { text, row } = self.words;
        write!(f, "in '{text}' of '{}'", self.line)?;
        if row.names.is_empty() {
            return Ok(());
        }
        write!(f, " with {} = {}", row.names, row.values)
    }
}

/// The words of a clause that are not read yet.
#[derive(Clone, Copy, Debug)]
pub(crate) struct Words<'a> {
    text: &'a str,
    row: Row<'a>,
}

impl<'a> Words<'a> {
    pub(crate) fn new(text: &'a str, row: Row<'a>) -> Words<'a> {
        Words { text, row }
    }

    pub(crate) fn is_empty(&self) -> bool {
        self.items().is_empty()
    }

    /// The next word.
    pub(crate) fn word(&mut self) -> &'a str {
        let text = self.items();
        let (word, rest) = match text.split_once(' ') {
            Some(parts) => parts,
            None => (text, ""),
        };
        self.text = rest.trim();
        self.row.value(word)
    }

    /// All words that are left, as the name of a move has several.
    pub(crate) fn all(&mut self) -> &'a str {
        let all = self.items();
        self.text = "";
        all
    }

    /// The words as one text: items, with commas between them. A name alone may represent all of it.
    pub(crate) fn items(&self) -> &'a str {
        if self.text.contains(' ') {
            return self.text;
        }
        self.row.value(self.text)
    }

    pub(crate) fn of_item(&self, item: &'a str) -> Words<'a> {
        Words::new(self.row.value(item.trim()), self.row)
    }

    /// What a part of a word represents.
    pub(crate) fn value(&self, part: &'a str) -> &'a str {
        self.row.value(part)
    }

    pub(crate) fn byte(&mut self) -> Result<u8, Unread> {
        byte_of(self.word())
    }

    /// By how many stages a stat rises, or falls.
    pub(crate) fn shift(&mut self) -> Result<i8, Unread> {
        self.word().parse::<i8>().ok().ok_or(Unread)
    }

    pub(crate) fn number(&mut self) -> Result<u16, Unread> {
        number_of(self.word())
    }

    /// A number, or `None` for the word `none`.
    pub(crate) fn count(&mut self) -> Result<Option<u8>, Unread> {
        match self.word() {
            "none" => Ok(None),
            number => Ok(Some(byte_of(number)?)),
        }
    }

    pub(crate) fn side(&mut self) -> Result<Side, Unread> {
        side_of(self.word())
    }

    /// The move that all words that are left name.
    pub(crate) fn id(&mut self) -> Result<MoveId, Unread> {
        MoveId::from_name(self.all()).ok_or(Unread)
    }

    pub(crate) fn kind(&mut self) -> Result<Kind, Unread> {
        among(&KINDS, self.word())
    }

    pub(crate) fn stat(&mut self) -> Result<Stat, Unread> {
        among(&STATS, self.word())
    }

    pub(crate) fn element(&mut self) -> Result<Element, Unread> {
        among(&ELEMENTS, self.word())
    }

    /// A slot, Struggle or nothing.
    pub(crate) fn used(&mut self) -> Result<UsedMove, Unread> {
        match self.word() {
            "nothing" => Ok(UsedMove::Nothing),
            "struggle" => Ok(UsedMove::Struggle),
            slot => Ok(UsedMove::Slot(byte_of(slot)?)),
        }
    }

    /// A status, where sleep has its turns and perhaps the mark.
    pub(crate) fn status(&mut self) -> Result<Status, Unread> {
        match self.word() {
            "none" => Ok(Status::Healthy),
            "slp" => Ok(Status::Asleep {
                turns: self.byte()?,
                marked: self.word() == "marked",
            }),
            word => among(&STATUSES, word),
        }
    }
}

pub(crate) fn number_of(word: &str) -> Result<u16, Unread> {
    word.parse::<u16>().ok().ok_or(Unread)
}

fn byte_of(word: &str) -> Result<u8, Unread> {
    word.parse::<u8>().ok().ok_or(Unread)
}

pub(crate) fn side_of(word: &str) -> Result<Side, Unread> {
    match word {
        "one" => Ok(Side::One),
        "two" => Ok(Side::Two),
        _ => Err(Unread),
    }
}

/// What a word represents in a list of words.
pub(crate) fn among<T: Copy>(known: &[(&str, T)], word: &str) -> Result<T, Unread> {
    for (name, value) in known {
        if *name == word {
            return Ok(*value);
        }
    }
    Err(Unread)
}

const KINDS: [(&str, Kind); 5] = [
    ("slp", Kind::Sleep),
    ("psn", Kind::Poison),
    ("brn", Kind::Burn),
    ("frz", Kind::Freeze),
    ("par", Kind::Paralysis),
];

const STATUSES: [(&str, Status); 4] = [
    ("psn", Status::Poisoned),
    ("brn", Status::Burned),
    ("frz", Status::Frozen),
    ("par", Status::Paralysed),
];

const STATS: [(&str, Stat); 6] = [
    ("attack", Stat::Attack),
    ("defense", Stat::Defense),
    ("speed", Stat::Speed),
    ("special", Stat::Special),
    ("accuracy", Stat::Accuracy),
    ("evasion", Stat::Evasion),
];

const ELEMENTS: [(&str, Element); 15] = [
    ("Normal", Normal),
    ("Fighting", Fighting),
    ("Flying", Flying),
    ("Poison", Poison),
    ("Ground", Ground),
    ("Rock", Rock),
    ("Bug", Bug),
    ("Ghost", Ghost),
    ("Fire", Fire),
    ("Water", Water),
    ("Grass", Grass),
    ("Electric", Electric),
    ("Psychic", Psychic),
    ("Ice", Ice),
    ("Dragon", Dragon),
];
