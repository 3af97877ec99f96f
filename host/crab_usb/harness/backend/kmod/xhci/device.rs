#[path = "../../../../../original/absent/backend/kmod/xhci/asked.rs"]
pub(crate) mod asked;
pub(crate) mod layer;
