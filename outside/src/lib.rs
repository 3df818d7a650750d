//! The rules (docs/RULES.md) a second time, in plain Rust and by other means than the crates, and the cases by which
//! the two are compared.

pub mod arguments;
pub mod call;
pub mod damage;
pub mod desk_cases;
pub mod desk_command;
pub mod host;
pub mod least;
pub mod listing;
pub mod memory;
pub mod notation;
pub mod plan_cases;
pub mod price;
pub mod program;
pub mod random;
pub mod record;
pub mod rereading;
pub mod search;
pub mod shapes;
pub mod tally;
pub mod text;
pub mod text_cases;
pub mod text_damage;
pub mod vectors;
pub mod walk;
pub mod walk_kinds;
pub mod write;
pub mod write_cases;
