//! What the programs in Rust share: the archive and its peers as safe Rust, lent memory,
//! counted checks, seeded numbers.

pub mod answers;
pub mod check;
pub mod chosen;
pub mod context;
pub mod lent;
pub mod library;
pub mod mac;
pub mod parts;
pub mod peers;
pub mod probe;
pub mod random;
pub mod ring;
pub mod table;
pub mod whole;
pub mod work;
