//! The oracle: optd's own Rust, unchanged, asked in the words of docs/FORMAT.md, the rules. See README.md.

pub mod builder;
pub mod command;
pub mod compare;
pub mod context;
pub mod damage;
pub mod facts;
pub mod families;
pub mod fixed;
pub mod generate;
pub mod listing;
pub mod meets;
pub mod paths;
pub mod plan;
pub mod pushdown;
pub mod question;
pub mod random;
pub mod records;
pub mod reduce;
pub mod rows;
pub mod simplify;
pub mod subject;
pub mod write;
