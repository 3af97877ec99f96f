// Hubs as devices: only the names that hub/mod.rs mentions.
pub struct HubDevice;
pub struct PortState;
