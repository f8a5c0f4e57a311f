//! The numbers that document 01 gives the registries.

use crate::sub_tlv::SubTlvContext;

/// The greatest registry number.
pub const LAST_REGISTRY: u8 = 5;

/// The module's registry with this number, which must be 0 to 5.
pub(crate) fn context(registry: u8) -> SubTlvContext {
    match registry {
        0 => SubTlvContext::Neighbor,
        1 => SubTlvContext::Prefix,
        2 => SubTlvContext::RouterCapability,
        3 => SubTlvContext::Binding,
        4 => SubTlvContext::Srv6Sid,
        5 => SubTlvContext::Unregistered,
        _ => panic!("registry {registry} is not 0 to 5"),
    }
}

/// The registry of a nested walk below a walk in registry `top`.
pub(crate) fn of_nested_walk(top: u8) -> u8 {
    match top {
        0 | 1 => 4,
        2 => 5,
        _ => top,
    }
}
