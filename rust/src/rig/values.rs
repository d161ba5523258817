//! The values of a rig, with their names.
use super::fault::Fault;
use super::read::{Read, read};
use super::text::decoded;
use crate::sheet::Sheet;
use std::str::FromStr;

/// A rig: a [`Sheet`] with a name for each of its values. It is read from text by [`str::parse`] and printed as text.
#[derive(Clone, Debug, PartialEq, Eq, Hash)]
pub struct Rig {
    pub(super) names: Vec<String>,
    pub(super) sheet: Sheet,
}

impl Rig {
    /// A rig of a sheet and a name for each value. None where there are more names or fewer, and where the text could not hold one: a name has no
    /// `:`, no `#`, no end of a line, and no space around it.
    ///
    /// ```
    /// use thresholm::{Flavor, Multivector, Sheet, rig::Rig};
    /// let sheet = Sheet::from_values(&[Multivector::vector(&[0.0, 2.0], Flavor::Vanilla)?])?;
    /// assert!(Rig::with_names(sheet.clone(), ["podium: front"]).is_none());
    /// let rig = Rig::with_names(sheet, ["podium"]).expect("a good name");
    /// assert!(rig.to_string().starts_with("podium: 2 dimensions, flavor VGA\n"));
    /// # Ok::<(), thresholm::Error>(())
    /// ```
    pub fn with_names(sheet: Sheet, names: impl IntoIterator<Item = impl Into<String>>) -> Option<Rig> {
        let names: Vec<String> = names.into_iter().map(Into::into).collect();
        let good = |name: &String| !name.contains([':', '#', '\n']) && name.trim() == name;
        (names.len() == sheet.len() && names.iter().all(good)).then_some(Rig { names, sheet })
    }

    /// Reads the text of a rig from bytes. A mark at their start that says that they are UTF-8 is passed over.
    pub fn from_utf8(bytes: &[u8]) -> Result<Rig, Fault> {
        decoded(bytes)?.parse()
    }

    /// The names of the values, in order. A value without one has an empty name.
    #[must_use]
    pub fn names(&self) -> &[String] {
        &self.names
    }

    /// The sheet of the values.
    #[must_use]
    pub fn sheet(&self) -> &Sheet {
        &self.sheet
    }

    /// The sheet, taken out.
    #[must_use]
    pub fn into_sheet(self) -> Sheet {
        self.sheet
    }
}

impl FromStr for Rig {
    type Err = Fault;

    /// Reads the text of a rig.
    fn from_str(text: &str) -> Result<Rig, Fault> {
        let Read { names, shapes, patterns } = read(text)?;
        // Each value was held against the limits of a sheet as it was read.
        let sheet = Sheet::new(shapes, patterns).map_err(|error| Fault::new(1, 1, error.to_string()))?;
        Ok(Rig { names, sheet })
    }
}

impl From<Sheet> for Rig {
    /// A rig whose values are called `value 0`, `value 1` and so on.
    fn from(sheet: Sheet) -> Rig {
        Rig { names: (0..sheet.len()).map(|index| format!("value {index}")).collect(), sheet }
    }
}
