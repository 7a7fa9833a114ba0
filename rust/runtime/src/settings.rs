//! Settings: the tables of a group, what sets them by name, and what they are.
//!
//! The source written for a group declares `Flags`, an enum for each setting that is one, and `builder`. A [`Builder`] begins with
//! the defaults; `Flags::new` takes it once all is set.

use core::fmt;

/// What the written settings of each group have in scope.
#[doc(hidden)]
pub mod in_scope {
    pub use super::{Builder, Value, detail};
    pub use core::fmt;
}

/// The greatest number of bytes that the settings of a group take.
const MAX_BYTES: usize = 255;

/// The values of the settings of a group, before they become its `Flags`.
#[derive(Clone)]
pub struct Builder {
    template: &'static detail::Template,
    /// As many as the template has defaults, and then zeros.
    bytes: [u8; MAX_BYTES],
}

/// Why a setting isn't set, enabled or told. Nothing is changed then.
#[derive(Clone, Copy, Debug, PartialEq, Eq)]
pub enum SetError {
    /// No setting or preset of the group has the name.
    BadName,
    /// The name is of a kind with which this can't be done: a preset is only enabled, a number or an enum never.
    BadType,
    /// The setting has no such value.
    BadValue,
}

impl fmt::Display for SetError {
    fn fmt(&self, f: &mut fmt::Formatter) -> fmt::Result {
        f.write_str(match self {
            Self::BadName => "no setting or preset has the name",
            Self::BadType => "the name is of another kind",
            Self::BadValue => "the setting has no such value",
        })
    }
}

impl core::error::Error for SetError {}

impl Builder {
    /// All settings at their defaults.
    ///
    /// # Panics
    ///
    /// If the group has more than 255 bytes of settings, which none that was declared has.
    pub fn new(template: &'static detail::Template) -> Self {
        let mut bytes = [0; MAX_BYTES];
        bytes[..template.defaults.len()].copy_from_slice(template.defaults);
        Self { template, bytes }
    }

    /// The tables of the group.
    pub fn template(&self) -> &'static detail::Template {
        self.template
    }

    /// The bytes of the settings, for the `Flags` of this group.
    ///
    /// # Panics
    ///
    /// If the group has another name.
    pub fn state_for(&self, name: &str) -> &[u8] {
        assert_eq!(name, self.template.name, "the builder is of another group");
        self.bytes()
    }

    fn bytes(&self) -> &[u8] {
        &self.bytes[..self.template.defaults.len()]
    }

    /// Gives a setting the value that is written: `true` or `false` for a boolean, a decimal number up to 255 without zeros before
    /// it for a number, or one of the values of an enum.
    pub fn set(&mut self, name: &str, value: &str) -> Result<(), SetError> {
        let descriptor = self.template.find(name).ok_or(SetError::BadName)?;
        let offset = descriptor.offset as usize;
        match descriptor.detail {
            detail::Detail::Bool { bit } => match value {
                "true" => self.bytes[offset] |= 1 << bit,
                "false" => self.bytes[offset] &= !(1 << bit),
                _ => return Err(SetError::BadValue),
            },
            detail::Detail::Num => self.bytes[offset] = number(value).ok_or(SetError::BadValue)?,
            detail::Detail::Enum { last, enumerators } => {
                let values = self.template.enums(last, enumerators);
                let place = values.iter().position(|it| *it == value).ok_or(SetError::BadValue)?;
                self.bytes[offset] = place as u8;
            }
            detail::Detail::Preset => return Err(SetError::BadType),
        }
        Ok(())
    }

    /// Makes a boolean true, or each boolean that a preset turns on.
    pub fn enable(&mut self, name: &str) -> Result<(), SetError> {
        let descriptor = self.template.find(name).ok_or(SetError::BadName)?;
        match descriptor.detail {
            detail::Detail::Bool { bit } => self.bytes[descriptor.offset as usize] |= 1 << bit,
            detail::Detail::Preset => {
                for (byte, (mask, value)) in self.bytes.iter_mut().zip(self.template.masks(descriptor)) {
                    *byte = *byte & !mask | value;
                }
            }
            detail::Detail::Num | detail::Detail::Enum { .. } => return Err(SetError::BadType),
        }
        Ok(())
    }

    /// The setting of the name with its value.
    pub fn get(&self, name: &str) -> Result<Value, SetError> {
        let descriptor = self.template.find(name).ok_or(SetError::BadName)?;
        self.value(descriptor).ok_or(SetError::BadType)
    }

    /// The settings with their values, in the order of the tables.
    pub fn iter(&self) -> impl Iterator<Item = Value> {
        self.template.descriptors.iter().filter_map(|it| self.value(it))
    }

    /// `None` where it is a preset.
    fn value(&self, descriptor: &'static detail::Descriptor) -> Option<Value> {
        let values = match descriptor.detail {
            detail::Detail::Preset => return None,
            detail::Detail::Enum { last, enumerators } => Some(self.template.enums(last, enumerators)),
            detail::Detail::Bool { .. } | detail::Detail::Num => None,
        };
        let value = self.bytes[descriptor.offset as usize];
        Some(Value {
            name: descriptor.name,
            detail: descriptor.detail,
            values,
            value,
        })
    }
}

/// A decimal number without a sign and without zeros before it.
fn number(text: &str) -> Option<u8> {
    let digits = text.bytes().all(|c| c.is_ascii_digit()) && (text == "0" || !text.starts_with('0'));
    if digits { text.parse().ok() } else { None }
}

/// The group as lines: `[NAME]`, and then `SETTING = VALUE` for each setting.
impl fmt::Display for Builder {
    fn fmt(&self, f: &mut fmt::Formatter) -> fmt::Result {
        writeln!(f, "[{}]", self.template.name)?;
        for descriptor in self.template.descriptors.iter().filter(|it| !it.detail.is_preset()) {
            write!(f, "{} = ", descriptor.name)?;
            self.template
                .format_toml_value(descriptor.detail, self.bytes[descriptor.offset as usize], f)?;
            writeln!(f)?;
        }
        Ok(())
    }
}

impl fmt::Debug for Builder {
    fn fmt(&self, f: &mut fmt::Formatter) -> fmt::Result {
        f.debug_struct("Builder")
            .field("template", &self.template.name)
            .field("bytes", &self.bytes())
            .finish()
    }
}

/// A setting with its value, as `Flags::iter` answers it.
#[derive(Clone, Copy, Debug)]
pub struct Value {
    /// The name of the setting.
    pub name: &'static str,
    /// What it is.
    pub detail: detail::Detail,
    /// The names of the values of an enum.
    pub values: Option<&'static [&'static str]>,
    /// The byte that holds it: of an enum the place of its value, of a boolean also those beside it.
    pub value: u8,
}

impl Value {
    /// The boolean, if it is one.
    pub fn as_bool(&self) -> Option<bool> {
        match self.detail {
            detail::Detail::Bool { bit } => Some(self.value >> bit & 1 == 1),
            _ => None,
        }
    }

    /// The number, if it is one.
    pub fn as_num(&self) -> Option<u8> {
        match self.detail {
            detail::Detail::Num => Some(self.value),
            _ => None,
        }
    }

    /// The name of the value, if it is an enum.
    pub fn as_enum(&self) -> Option<&'static str> {
        self.values?.get(usize::from(self.value)).copied()
    }
}

/// The value as [`Builder::set`] takes it.
impl fmt::Display for Value {
    fn fmt(&self, f: &mut fmt::Formatter) -> fmt::Result {
        match (self.as_bool(), self.as_enum()) {
            (Some(truth), _) => write!(f, "{truth}"),
            (None, Some(name)) => f.write_str(name),
            (None, None) => write!(f, "{}", self.value),
        }
    }
}

/// The tables of a group.
pub mod detail {
    use crate::constant_hash::probe;
    use core::fmt;

    /// All tables of a group.
    #[derive(Clone, Copy, Debug)]
    pub struct Template {
        /// The name of the group.
        pub name: &'static str,
        /// The settings, and after them the presets.
        pub descriptors: &'static [Descriptor],
        /// The names of the values of all enums.
        pub enumerators: &'static [&'static str],
        /// The slots of names, each with the place of a descriptor, or 65535 where it is vacant.
        pub hash_table: &'static [u16],
        /// The bytes of the settings at their defaults.
        pub defaults: &'static [u8],
        /// For each preset as many masks and values as there are bytes of settings.
        pub presets: &'static [(u8, u8)],
    }

    /// A setting or a preset.
    #[derive(Clone, Copy, Debug, PartialEq, Eq, Hash)]
    pub struct Descriptor {
        /// Its name.
        pub name: &'static str,
        /// What it is for, in one line.
        pub description: &'static str,
        /// The byte of a setting; of a preset the place of its first mask.
        pub offset: u32,
        /// What it is.
        pub detail: Detail,
    }

    /// What a descriptor is of.
    #[derive(Clone, Copy, Debug, PartialEq, Eq, Hash)]
    pub enum Detail {
        /// A boolean.
        Bool {
            /// The bit in its byte.
            bit: u8,
        },
        /// A number.
        Num,
        /// An enum.
        Enum {
            /// The greatest number of a value. The least is 0.
            last: u8,
            /// The place of the name of the first value.
            enumerators: u16,
        },
        /// A preset.
        Preset,
    }

    impl Detail {
        /// Whether it is a preset, and so has no value.
        pub const fn is_preset(self) -> bool {
            matches!(self, Self::Preset)
        }
    }

    impl Template {
        /// The setting or preset of that name, found by the slots.
        pub fn find(&self, name: &str) -> Option<&'static Descriptor> {
            let descriptors = self.descriptors;
            let held = |slot: usize| descriptors.get(usize::from(self.hash_table[slot]));
            held(probe(self.hash_table.len(), name, |slot| Some(held(slot)?.name))?)
        }

        /// The names of the values of an enum.
        pub fn enums(&self, last: u8, enumerators: u16) -> &'static [&'static str] {
            let first = usize::from(enumerators);
            &self.enumerators[first..=first + usize::from(last)]
        }

        /// For each byte of settings what a preset does to it: a mask of what it changes, and the values of that.
        pub(super) fn masks(&self, preset: &Descriptor) -> &'static [(u8, u8)] {
            let first = preset.offset as usize;
            &self.presets[first..first + self.defaults.len()]
        }

        /// The booleans that a preset turns on, itself or by the presets that it names. A setting turns on nothing.
        pub fn enabled_by<'a>(&'a self, preset: &'a Descriptor) -> impl Iterator<Item = &'static Descriptor> + use<'a> {
            let masks = if preset.detail.is_preset() {
                self.masks(preset)
            } else {
                &[]
            };
            self.descriptors.iter().filter(move |it| match it.detail {
                Detail::Bool { bit } => masks
                    .get(it.offset as usize)
                    .is_some_and(|(_, value)| value >> bit & 1 == 1),
                _ => false,
            })
        }

        /// Writes the value of a setting as a value of TOML.
        pub fn format_toml_value(&self, detail: Detail, byte: u8, f: &mut fmt::Formatter) -> fmt::Result {
            match detail {
                Detail::Bool { bit } => write!(f, "{}", byte >> bit & 1 == 1),
                Detail::Num => write!(f, "{byte}"),
                Detail::Enum { last, enumerators } => match self.enums(last, enumerators).get(usize::from(byte)) {
                    Some(name) => write!(f, "\"{name}\""),
                    None => write!(f, "{byte}"),
                },
                Detail::Preset => Ok(()),
            }
        }
    }
}

#[cfg(test)]
mod tests {
    extern crate std;

    use super::detail::{Descriptor, Detail, Template};
    use super::*;
    use crate::constant_hash::simple_hash;
    use std::format;
    use std::string::ToString;

    const fn descriptor(name: &'static str, offset: u32, detail: Detail) -> Descriptor {
        Descriptor {
            name,
            description: "",
            offset,
            detail,
        }
    }

    static DESCRIPTORS: [Descriptor; 5] = [
        descriptor("count", 0, Detail::Num),
        descriptor(
            "order",
            1,
            Detail::Enum {
                last: 1,
                enumerators: 1,
            },
        ),
        descriptor("addresses", 2, Detail::Bool { bit: 0 }),
        descriptor("sums", 2, Detail::Bool { bit: 1 }),
        descriptor("careful", 0, Detail::Preset),
    ];

    /// A template whose slots are filled here: each name takes the first vacant one of those that the look-up tries.
    fn template() -> &'static Template {
        let mut slots = [0xffff; 8];
        for (place, it) in DESCRIPTORS.iter().enumerate() {
            let mut slot = simple_hash(it.name) & 7;
            let mut step = 0;
            while slots[slot] != 0xffff {
                step += 1;
                slot = (slot + step) & 7;
            }
            slots[slot] = place as u16;
        }
        std::boxed::Box::leak(std::boxed::Box::new(Template {
            name: "machine",
            descriptors: &DESCRIPTORS,
            enumerators: &["none", "little", "big"],
            hash_table: std::boxed::Box::leak(std::boxed::Box::new(slots)),
            defaults: &[16, 0, 1],
            presets: &[(0, 0), (0, 0), (3, 2)],
        }))
    }

    #[test]
    fn names_are_found() {
        for it in &DESCRIPTORS {
            assert_eq!(template().find(it.name), Some(it));
        }
        assert_eq!(template().find("none_such"), None);
    }

    #[test]
    fn settings_are_set_and_told() {
        let mut builder = Builder::new(template());
        assert_eq!(
            builder.to_string(),
            "[machine]\ncount = 16\norder = \"little\"\naddresses = true\nsums = false\n"
        );
        for (name, value) in [
            ("count", "255"),
            ("order", "big"),
            ("addresses", "false"),
            ("sums", "true"),
            ("count", "0"),
        ] {
            assert_eq!(builder.set(name, value), Ok(()));
            assert_eq!(builder.get(name).unwrap().to_string(), value);
        }
        assert_eq!(builder.state_for("machine"), [0, 1, 2]);
        assert_eq!(
            builder.iter().map(|it| it.name).collect::<std::vec::Vec<_>>(),
            ["count", "order", "addresses", "sums"]
        );
        let order = builder.get("order").unwrap();
        assert_eq!(
            (order.as_enum(), order.as_num(), order.as_bool()),
            (Some("big"), None, None)
        );
        assert_eq!(
            format!("{builder:?}"),
            "Builder { template: \"machine\", bytes: [0, 1, 2] }"
        );
    }

    #[test]
    fn presets_change_what_they_name() {
        let mut builder = Builder::new(template());
        assert_eq!(builder.enable("careful"), Ok(()));
        assert_eq!(builder.state_for("machine"), [16, 0, 2]);
        assert_eq!(builder.enable("addresses"), Ok(()));
        assert_eq!(builder.state_for("machine"), [16, 0, 3]);
        let enabled = |it| {
            template()
                .enabled_by(it)
                .map(|it| it.name)
                .collect::<std::vec::Vec<_>>()
        };
        assert_eq!(
            (enabled(&DESCRIPTORS[4]), enabled(&DESCRIPTORS[0])),
            (std::vec!["sums"], std::vec![])
        );
    }

    #[test]
    fn what_cannot_be_done_changes_nothing() {
        let mut builder = Builder::new(template());
        for (name, value, error) in [
            ("none", "1", SetError::BadName),
            ("careful", "true", SetError::BadType),
            ("count", "256", SetError::BadValue),
            ("count", "+1", SetError::BadValue),
            ("count", "01", SetError::BadValue),
            ("count", "", SetError::BadValue),
            ("order", "none", SetError::BadValue),
            ("sums", "1", SetError::BadValue),
        ] {
            assert_eq!(builder.set(name, value), Err(error), "{name} {value}");
        }
        assert_eq!(
            [builder.enable("count"), builder.enable("none")],
            [Err(SetError::BadType), Err(SetError::BadName)]
        );
        assert_eq!(builder.get("careful").unwrap_err(), SetError::BadType);
        assert_eq!(builder.state_for("machine"), [16, 0, 1]);
    }

    #[test]
    #[should_panic(expected = "another group")]
    fn a_builder_is_of_its_own_group() {
        Builder::new(template()).state_for("other");
    }
}
