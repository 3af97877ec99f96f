pub(crate) mod asked;
pub(crate) mod layer;
