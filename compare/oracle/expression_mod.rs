//! Stand-in: only names its two children.
pub mod channel_list;
pub mod numeric_list;
