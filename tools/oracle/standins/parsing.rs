//! Stands in for the missing module: every text is refused.
use crate::{BBox, UtilesCoreError, UtilesCoreResult};

pub fn parse_bbox(text: &str) -> UtilesCoreResult<BBox> {
    Err(UtilesCoreError::ParseError(text.to_string()))
}
