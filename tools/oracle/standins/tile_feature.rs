//! Stands in for the missing module: the fields that `tile.rs` fills.
use serde_json::{Map, Value};

use crate::tile::TileFeatureGeometry;

pub struct TileFeature {
    pub id: String,
    pub type_: String,
    pub geometry: TileFeatureGeometry,
    pub bbox: (f64, f64, f64, f64),
    pub properties: Map<String, Value>,
}
