//! Stands in for the missing module: the two cases that `tile.rs` names.
#[derive(Debug)]
pub enum Projection {
    Geographic,
    Mercator,
}
