// The published file as it is. The driver is a part of the same module, so that it sees the
// file's private items.
include!(concat!(
    env!("ORACLE_SOURCE"),
    "/cspuz_rs_puzzles/src/puzzles/dbchoco.rs"
));

pub mod driver;
