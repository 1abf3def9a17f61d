//! The numbers of documents 01 and 02: statuses, attributes, options, timeouts and limits.

pub const SUCCESSFUL: u32 = 0;
pub const INVALID_NAME: u32 = 3;
pub const INVALID_ID: u32 = 4;
pub const TOO_MANY: u32 = 5;
pub const TIMEOUT: u32 = 6;
pub const OBJECT_WAS_DELETED: u32 = 7;
pub const INVALID_SIZE: u32 = 8;
pub const INVALID_NUMBER: u32 = 10;
pub const NOT_DEFINED: u32 = 11;
pub const RESOURCE_IN_USE: u32 = 12;
pub const UNSATISFIED: u32 = 13;
pub const INCORRECT_STATE: u32 = 14;
pub const CALLED_FROM_ISR: u32 = 18;
pub const INVALID_PRIORITY: u32 = 19;
pub const NOT_OWNER_OF_RESOURCE: u32 = 23;
pub const INTERNAL_ERROR: u32 = 25;
pub const WAITING: u32 = 100;

pub const PRIORITY: u32 = 4;
pub const BINARY: u32 = 16;
pub const SIMPLE_BINARY: u32 = 32;
pub const INHERITANCE: u32 = 64;

pub const NO_WAIT: u32 = 1;

/// Timeouts that are no number of ticks: the standard limit, and for ever.
pub const STANDARD: u32 = 0;
pub const FOREVER: u32 = 4_294_967_295;
/// The ticks of the standard limit.
pub const STANDARD_LIMIT: u32 = 500;

pub const MOST_TASKS: usize = 32;
pub const MOST_SLOTS: usize = 64;
pub const MOST_URGENT: u32 = 1;
pub const LEAST_URGENT: u32 = 255;
/// A slot of this generation is never used again once freed.
pub const LAST_GENERATION: u32 = 65535;

/// The greatest maximum that create allows with these attributes.
pub fn greatest_maximum(attributes: u32) -> u32 {
    if attributes & (BINARY + SIMPLE_BINARY) == 0 {
        u32::MAX
    } else {
        1
    }
}
