//! The registries, and the names of their types.

use core::error::Error;
use core::fmt;
use core::str::FromStr;

use crate::answer::Refusal;
use crate::ffi;
use crate::numbered::numbered;

/// The most octets that a name has.
pub const LONGEST_NAME: usize = 59;

numbered! {
    /// What gives the types of an area their meaning. Later ones may come.
    ///
    /// A text is read as a registry by its number or by its name in any case, the words of the name
    /// together or joined by `-` or `_`:
    ///
    /// ```
    /// use wakkemosut::Registry;
    ///
    /// for text in ["2", "RouterCapability", "router-capability", "ROUTER_CAPABILITY"] {
    ///     assert_eq!(text.parse(), Ok(Registry::RouterCapability));
    /// }
    /// assert_eq!(Registry::RouterCapability.to_string(), "RouterCapability");
    /// assert!("router capability".parse::<Registry>().is_err());
    /// ```
    Registry, a "registry" {
        /// Sub-TLVs of neighbors (TLVs 22 and 222).
        Neighbor = 0, "Neighbor";
        /// Sub-TLVs of reachable prefixes (TLVs 27, 135, 235, 236 and 237).
        Prefix = 1, "Prefix";
        /// Sub-TLVs of router capabilities (TLV 242).
        RouterCapability = 2, "RouterCapability";
        /// Sub-TLVs of SID/label bindings (TLVs 149 and 150).
        Binding = 3, "Binding";
        /// Sub-sub-TLVs of SRv6 SIDs.
        Srv6Sid = 4, "Srv6Sid";
        /// Sub-sub-TLVs of SRv6 capabilities, of which none has a name or a meaning.
        Unregistered = 5, "Unregistered";
    }
}

impl FromStr for Registry {
    type Err = ParseRegistryError;

    fn from_str(text: &str) -> Result<Self, ParseRegistryError> {
        let is_number = !text.is_empty() && text.bytes().all(|octet| octet.is_ascii_digit());
        let found = if is_number {
            text.parse().ok().and_then(Self::of)
        } else {
            named(text)
        };
        found.ok_or(ParseRegistryError { is_number })
    }
}

/// The registry with this name.
fn named(text: &str) -> Option<Registry> {
    let mut all = Registry::ALL.iter().copied();
    all.find(|registry| is_name(registry.name(), text))
}

/// Whether a text is this name in any case, its words together or joined by `-` or `_`. A capital
/// letter begins a word.
fn is_name(name: &str, text: &str) -> bool {
    let mut rest = text;
    for (at, letter) in name.char_indices() {
        if at > 0 && letter.is_ascii_uppercase() {
            rest = rest.strip_prefix(['-', '_']).unwrap_or(rest);
        }
        match rest.strip_prefix(|next: char| next.eq_ignore_ascii_case(&letter)) {
            Some(after) => rest = after,
            None => return false,
        }
    }
    rest.is_empty()
}

/// Says that a text is no registry, and which there are.
///
/// ```
/// use wakkemosut::Registry;
///
/// let wrong = "neighbour".parse::<Registry>().unwrap_err();
/// assert_eq!(
///     wrong.to_string(),
///     "no registry has this name; there are 0 Neighbor, 1 Prefix, 2 RouterCapability, \
///      3 Binding, 4 Srv6Sid, 5 Unregistered"
/// );
/// ```
#[derive(Clone, Copy, Debug, PartialEq, Eq, Hash)]
pub struct ParseRegistryError {
    /// Whether the text is a number, rather than a name.
    is_number: bool,
}

impl fmt::Display for ParseRegistryError {
    fn fmt(&self, out: &mut fmt::Formatter<'_>) -> fmt::Result {
        let what = if self.is_number { "number" } else { "name" };
        write!(out, "no registry has this {what}; there are")?;
        for (at, registry) in Registry::ALL.iter().enumerate() {
            let comma = if at > 0 { "," } else { "" };
            write!(out, "{comma} {} {registry}", registry.number())?;
        }
        Ok(())
    }
}

impl Error for ParseRegistryError {}

/// The name of a type in a registry, or nothing where it has none. The name is written to the front
/// of `out`, whose other octets stay; [`LONGEST_NAME`] octets are enough for each.
///
/// # Errors
///
/// [`Refusal::NameTooLong`].
///
/// ```
/// use wakkemosut::{LONGEST_NAME, Refusal, Registry, name};
///
/// let mut out = [0; LONGEST_NAME];
/// assert_eq!(name(Registry::Prefix, 5, &mut out), Ok(Some("SRv6 End SID")));
/// assert_eq!(name(Registry::Prefix, 7, &mut out), Ok(None));
/// assert_eq!(name(Registry::Prefix, 5, &mut out[..4]), Err(Refusal::NameTooLong));
/// ```
pub fn name(registry: Registry, t: u8, out: &mut [u8]) -> Result<Option<&str>, Refusal> {
    let numbers = ffi::name(registry.number(), t.into(), out).done()?;
    let text = core::str::from_utf8(&out[..numbers.written as usize]);
    let name = text.expect("a name is text");
    Ok((!name.is_empty()).then_some(name))
}
