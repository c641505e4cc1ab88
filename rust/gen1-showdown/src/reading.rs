//! Names and JSON values, read with errors that say where they are, what was expected and which name may be meant.
use gen1::{ArrayVec, MemberSpec, MoveId, Rules, Side, Species, TurnLimit, UnknownName};
use serde_json::Value;
use std::fmt;
use std::str::FromStr;

/// A type whose values have names.
pub trait Named: FromStr<Err = UnknownName> {
    fn name_of(&self) -> &'static str;
}

impl Named for Species {
    fn name_of(&self) -> &'static str {
        self.name()
    }
}

impl Named for MoveId {
    fn name_of(&self) -> &'static str {
        self.name()
    }
}

/// The name that a text may be meant to be; `None` if every name differs in a third of its letters.
pub fn nearest_name<T: Named>(text: &str) -> Option<&'static str> {
    match text.parse::<T>() {
        Ok(found) => Some(found.name_of()),
        Err(unknown) => unknown.suggestion(),
    }
}

/// The word of a list that a text may be meant to be; `None` if more than half of its letters differ from every word. Of words that are
/// equally near, one with the same first letter comes first.
pub fn nearest_word<'a>(text: &str, words: impl IntoIterator<Item = &'a str>) -> Option<&'a str> {
    let lower = text.to_ascii_lowercase();
    let far = text.len().div_ceil(2);
    words
        .into_iter()
        // Each letter that is too many counts, so that a long text is not compared at all.
        .filter(|word| word.len().abs_diff(text.len()) <= 3)
        .map(|word| {
            let distance = strsim::osa_distance(&lower, &word.to_ascii_lowercase());
            (
                distance,
                word.as_bytes().first() != lower.as_bytes().first(),
                word,
            )
        })
        .filter(|(distance, ..)| *distance <= far.min(3))
        .min()
        .map(|(.., word)| word)
}

/// The end of an explanation that says which name may be meant.
pub fn did_you_mean(name: Option<&str>) -> String {
    name.map_or_else(String::new, |name| format!("; did you mean \"{name}\"?"))
}

/// A text in quotation marks, or its length if it is long.
pub fn shown(text: &str) -> String {
    match text.len() {
        ..=60 => Value::from(text).to_string(),
        length => format!("a text of {length} bytes"),
    }
}

/// A value of an input that is not of the expected form.
#[derive(Debug)]
pub struct Misfit {
    /// The path to the value, empty for the whole input.
    path: String,
    why: String,
}

impl Misfit {
    pub fn new(value: &Value, expected: &str) -> Misfit {
        let found = match value {
            Value::Array(items) => format!("a list of length {}", items.len()),
            Value::Object(_) => "an object".into(),
            Value::String(text) => shown(text),
            other => other.to_string(),
        };
        Misfit::because(format!("expected {expected}, found {found}"))
    }

    /// A value that is not as expected for this reason.
    pub fn because(why: String) -> Misfit {
        Misfit {
            path: String::new(),
            why,
        }
    }

    /// This error with the name that may be meant, if there is one.
    pub fn or(mut self, name: Option<&str>) -> Misfit {
        self.why += &did_you_mean(name);
        self
    }

    /// This error, with the path from the value that contains the wrong one.
    pub fn under(mut self, step: &str) -> Misfit {
        self.path.insert_str(0, step);
        self
    }
}

impl fmt::Display for Misfit {
    fn fmt(&self, f: &mut fmt::Formatter<'_>) -> fmt::Result {
        let dot = if self.path.starts_with('.') { "" } else { "." };
        write!(f, "at {dot}{}: {}", self.path, self.why)
    }
}

/// A type that is read from a JSON value.
pub trait Typed: Sized {
    fn of(value: &Value) -> Result<Self, Misfit>;
}

/// Implements `Typed` for types of a single value: how the value is read, and what is expected otherwise.
macro_rules! single_values {
    ($($kind:ty: $read:expr, $expected:literal;)*) => {$(
        impl Typed for $kind {
            fn of(value: &Value) -> Result<Self, Misfit> {
                let read: fn(&Value) -> Option<$kind> = $read;
                read(value).ok_or_else(|| Misfit::new(value, $expected))
            }
        }
    )*};
}

single_values! {
    bool: Value::as_bool, "true or false";
    String: |value| value.as_str().map(String::from), "a text";
    u8: whole, "a whole number from 0 to 255";
    u16: whole, "a whole number from 0 to 65535";
    u32: whole, "a whole number from 0 to 4294967295";
    Rules: |value| Rules::new(whole(value)?), "a whole number from 0 to 3";
    TurnLimit: |value| TurnLimit::new(whole(value)?), "a whole number from 1 to 9999";
    Side: |value| Side::from_number(whole(value)?), "the number of a side, 1 or 2";
}

/// Implements `Typed` for names, which are exact.
macro_rules! names {
    ($($kind:ty: $expected:literal;)*) => {$(
        impl Typed for $kind {
            fn of(value: &Value) -> Result<Self, Misfit> {
                let text = value.as_str().unwrap_or_default();
                <$kind>::from_name(text)
                    .ok_or_else(|| Misfit::new(value, $expected).or(nearest_name::<$kind>(text)))
            }
        }
    )*};
}

names! {
    Species: "the name of a species";
    MoveId: "the name of a move";
}

/// A whole number in the range of its type.
fn whole<T: TryFrom<u64>>(value: &Value) -> Option<T> {
    value.as_u64()?.try_into().ok()
}

impl<T: Typed> Typed for Vec<T> {
    fn of(value: &Value) -> Result<Self, Misfit> {
        let items = value
            .as_array()
            .ok_or_else(|| Misfit::new(value, "a list"))?;
        (0..items.len()).map(|number| item(items, number)).collect()
    }
}

/// The moves of a member.
impl<T: Typed, const N: usize> Typed for ArrayVec<T, N> {
    fn of(value: &Value) -> Result<Self, Misfit> {
        match value.as_array() {
            Some(items) if items.len() <= N => {
                (0..items.len()).map(|number| item(items, number)).collect()
            }
            _ => Err(Misfit::new(value, &format!("a list of at most {N} moves"))),
        }
    }
}

impl<T: Typed + Copy + Default, const N: usize> Typed for [T; N] {
    fn of(value: &Value) -> Result<Self, Misfit> {
        let items = exactly::<N>(value)?;
        let mut all = [T::default(); N];
        for (number, place) in all.iter_mut().enumerate() {
            *place = item(items, number)?;
        }
        Ok(all)
    }
}

impl<A: Typed, B: Typed> Typed for (A, B) {
    fn of(value: &Value) -> Result<Self, Misfit> {
        let items = exactly::<2>(value)?;
        Ok((item(items, 0)?, item(items, 1)?))
    }
}

impl<A: Typed, B: Typed, C: Typed> Typed for (A, B, C) {
    fn of(value: &Value) -> Result<Self, Misfit> {
        let items = exactly::<3>(value)?;
        Ok((item(items, 0)?, item(items, 1)?, item(items, 2)?))
    }
}

/// The items of a list with exactly this length.
fn exactly<const N: usize>(value: &Value) -> Result<&[Value; N], Misfit> {
    let items = value
        .as_array()
        .and_then(|items| items.as_slice().try_into().ok());
    items.ok_or_else(|| Misfit::new(value, &format!("a list of {N} items")))
}

fn item<T: Typed>(items: &[Value], number: usize) -> Result<T, Misfit> {
    T::of(&items[number]).map_err(|why| why.under(&format!("[{number}]")))
}

/// The value under a key of an object.
pub fn key<T: Typed>(value: &Value, key: &str) -> Result<T, Misfit> {
    let Some(found) = value.get(key) else {
        let mut why = Misfit::new(value, &format!("an object with the key \"{key}\""));
        if value.is_object() {
            why.why += " without it";
        }
        return Err(why);
    };
    T::of(found).map_err(|why| why.under(&format!(".{key}")))
}

/// Like [`key`], for a key that may be absent.
pub fn optional_key<T: Typed + Default>(value: &Value, name: &str) -> Result<T, Misfit> {
    value
        .get(name)
        .map_or(Ok(T::default()), |_| key(value, name))
}

/// A member, before its team is checked.
impl Typed for MemberSpec {
    fn of(value: &Value) -> Result<Self, Misfit> {
        Ok(MemberSpec {
            species: key(value, "species")?,
            level: key(value, "level")?,
            dvs: key(value, "dvs")?,
            exp: key(value, "exp")?,
            moves: key(value, "moves")?,
        })
    }
}
