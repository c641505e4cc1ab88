//! Events as lines of text, and events from log bytes.
use crate::generated::machine::{DeviceFault, Sink};
use crate::{Event, LogFault, LogReader};
use arrayvec::ArrayString;
use core::fmt;
use core::ops::Deref;

/// The length of the longest line in bytes, without its line feed.
const LENGTH: usize = 96;

/// The line of an event ([docs/MECHANICS.md, "Lines"](https://hibsuloy.example/gen1/blob/main/docs/MECHANICS.md#lines)), without a line feed: `|move|p1a: Tauros|Strength|p2a: Tauros`.
#[derive(Clone, Copy, PartialEq, Eq)]
pub struct Line {
    text: ArrayString<LENGTH>,
}

impl Line {
    /// The line of an event.
    #[must_use]
    pub fn of(event: &Event) -> Self {
        let mut text = Text::<LENGTH>(ArrayString::new());
        // No line is longer than the buffer, so no write fails.
        let _ = crate::generated::printer::print_line(event, &mut text);
        if text.0.ends_with('\n') {
            text.0.pop();
        }
        Line { text: text.0 }
    }

    /// The line as text.
    #[must_use]
    pub fn as_str(&self) -> &str {
        &self.text
    }
}

impl Deref for Line {
    type Target = str;

    fn deref(&self) -> &str {
        &self.text
    }
}

impl AsRef<str> for Line {
    fn as_ref(&self) -> &str {
        &self.text
    }
}

impl fmt::Display for Line {
    fn fmt(&self, f: &mut fmt::Formatter<'_>) -> fmt::Result {
        f.pad(&self.text)
    }
}

impl fmt::Debug for Line {
    fn fmt(&self, f: &mut fmt::Formatter<'_>) -> fmt::Result {
        fmt::Debug::fmt(self.as_str(), f)
    }
}

/// The text of a line or a sentence while it is written.
pub(crate) struct Text<const LENGTH: usize>(pub(crate) ArrayString<LENGTH>);

impl<const LENGTH: usize> Sink for Text<LENGTH> {
    fn write(&mut self, bytes: &[u8]) -> Result<usize, DeviceFault> {
        let text = core::str::from_utf8(bytes).map_err(|_| DeviceFault)?;
        self.0.try_push_str(text).map_err(|_| DeviceFault)?;
        Ok(bytes.len())
    }

    fn failed(&self) -> bool {
        false
    }
}

/// An iterator over the lines of events, in their order. [`Update::lines`](crate::Update::lines) returns it.
#[derive(Clone, Debug)]
pub struct Lines<'a> {
    events: core::slice::Iter<'a, Event>,
}

impl<'a> Lines<'a> {
    /// The lines of these events.
    #[must_use]
    pub fn new(events: &'a [Event]) -> Self {
        Lines {
            events: events.iter(),
        }
    }
}

impl Iterator for Lines<'_> {
    type Item = Line;

    fn next(&mut self) -> Option<Line> {
        self.events.next().map(Line::of)
    }

    fn size_hint(&self) -> (usize, Option<usize>) {
        self.events.size_hint()
    }
}

impl ExactSizeIterator for Lines<'_> {}

impl DoubleEndedIterator for Lines<'_> {
    fn next_back(&mut self) -> Option<Line> {
        self.events.next_back().map(Line::of)
    }
}

/// Iterates over the events of log bytes, of any number of updates one after the other ([docs/MECHANICS.md, "Log bytes"](https://hibsuloy.example/gen1/blob/main/docs/MECHANICS.md#log-bytes)).
///
/// An error is the last item: the bytes from there on are not a log, or end within an event.
///
/// ```
/// use gen1::{Event, LogFault, Side, events_of};
///
/// let events: Vec<_> = events_of(&[26, 1, 99]).collect();
/// assert_eq!(events, [Ok(Event::Win(Side::One)), Err(LogFault::UnknownTag)]);
/// ```
#[must_use]
pub fn events_of(log: &[u8]) -> Events<'_> {
    Events {
        reader: Some(LogReader::new()),
        rest: log,
    }
}

/// An iterator over the events of log bytes. [`events_of`] returns it.
pub struct Events<'a> {
    reader: Option<LogReader>,
    rest: &'a [u8],
}

impl Events<'_> {
    fn read(reader: &mut LogReader, rest: &mut &[u8]) -> Result<Option<Event>, LogFault> {
        let taken = reader.feed(rest)?;
        *rest = &rest[taken..];
        let event = reader.next();
        if event.is_none() {
            reader.finish()?;
        }
        Ok(event)
    }
}

impl Iterator for Events<'_> {
    type Item = Result<Event, LogFault>;

    fn next(&mut self) -> Option<Self::Item> {
        let read = Self::read(self.reader.as_mut()?, &mut self.rest).transpose();
        if !matches!(read, Some(Ok(_))) {
            self.reader = None;
        }
        read
    }
}

impl core::iter::FusedIterator for Events<'_> {}

impl fmt::Debug for Events<'_> {
    fn fmt(&self, f: &mut fmt::Formatter<'_>) -> fmt::Result {
        f.debug_struct("Events")
            .field("rest", &self.rest)
            .finish_non_exhaustive()
    }
}
