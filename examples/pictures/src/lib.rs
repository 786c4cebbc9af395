//! What the programs that draw pictures share.

pub mod board_list;
pub mod command_line;
pub mod examples;
pub mod live_ranges;
pub mod plot;
pub mod points;
pub mod random;
pub mod routing;
pub mod svg;
