//! Added to the sources (docs/PLAIN.md, "What is added"): serde for members and teams.
#[cfg(feature = "serde")]
mod serde_impls {
    use crate::generated::stats::{MemberSpec, Team};
    use crate::generated::tables::{MoveId, Species};
    use arrayvec::ArrayVec;
    use core::fmt;
    use serde::de::{Error, SeqAccess, Visitor};
    use serde::{Deserialize, Deserializer, Serialize, Serializer};

    /// The object in docs/PROGRAM.md, "Input". It is read with names in any spelling that [`member`](crate::member) accepts, and with the
    /// values of that function for `level`, `dvs` and `exp` that are absent. Other keys are refused.
    #[derive(Serialize, Deserialize)]
    #[serde(remote = "MemberSpec", deny_unknown_fields)]
    struct MemberObject {
        species: Species,
        #[serde(default = "highest_level")]
        level: u8,
        #[serde(default = "highest_dvs")]
        dvs: [u8; 4],
        #[serde(default = "highest_exp")]
        exp: [u16; 5],
        #[serde(deserialize_with = "moves")]
        moves: ArrayVec<(MoveId, u8), 4>,
    }

    fn highest_level() -> u8 {
        100
    }

    fn highest_dvs() -> [u8; 4] {
        [15; 4]
    }

    fn highest_exp() -> [u16; 5] {
        [u16::MAX; 5]
    }

    /// A move as a name, with three PP ups, or as a pair of a name and its PP ups.
    struct MoveForm(MoveId, u8);

    impl<'de> Deserialize<'de> for MoveForm {
        fn deserialize<D: Deserializer<'de>>(deserializer: D) -> Result<Self, D::Error> {
            if deserializer.is_human_readable() {
                deserializer.deserialize_any(MoveVisitor)
            } else {
                <(MoveId, u8)>::deserialize(deserializer).map(|(id, ups)| MoveForm(id, ups))
            }
        }
    }

    struct MoveVisitor;

    impl<'de> Visitor<'de> for MoveVisitor {
        type Value = MoveForm;

        fn expecting(&self, f: &mut fmt::Formatter<'_>) -> fmt::Result {
            f.write_str("the name of a move, or a pair of a name and PP ups")
        }

        fn visit_str<E: Error>(self, name: &str) -> Result<MoveForm, E> {
            name.parse().map(|id| MoveForm(id, 3)).map_err(E::custom)
        }

        fn visit_seq<A: SeqAccess<'de>>(self, mut items: A) -> Result<MoveForm, A::Error> {
            let id = items
                .next_element()?
                .ok_or_else(|| A::Error::invalid_length(0, &self))?;
            let ups = items
                .next_element()?
                .ok_or_else(|| A::Error::invalid_length(1, &self))?;
            match items.next_element::<u8>()? {
                None => Ok(MoveForm(id, ups)),
                Some(_) => Err(A::Error::invalid_length(3, &self)),
            }
        }
    }

    fn moves<'de, D: Deserializer<'de>>(
        deserializer: D,
    ) -> Result<ArrayVec<(MoveId, u8), 4>, D::Error> {
        let forms = ArrayVec::<MoveForm, 4>::deserialize(deserializer)?;
        Ok(forms.iter().map(|form| (form.0, form.1)).collect())
    }

    impl Serialize for MemberSpec {
        fn serialize<S: Serializer>(&self, serializer: S) -> Result<S::Ok, S::Error> {
            MemberObject::serialize(self, serializer)
        }
    }

    impl<'de> Deserialize<'de> for MemberSpec {
        fn deserialize<D: Deserializer<'de>>(deserializer: D) -> Result<Self, D::Error> {
            MemberObject::deserialize(deserializer)
        }
    }

    /// Reads a list of members, and checks it as `Team::new` does. A team cannot be serialized: it has the stats of its members, but not
    /// the DVs and experience from which they were computed.
    impl<'de> Deserialize<'de> for Team {
        fn deserialize<D: Deserializer<'de>>(deserializer: D) -> Result<Self, D::Error> {
            let members = ArrayVec::<MemberSpec, 6>::deserialize(deserializer)?;
            Team::new(&members).map_err(D::Error::custom)
        }
    }
}
