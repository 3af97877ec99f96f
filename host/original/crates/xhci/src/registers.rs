pub mod doorbell {
    /// What a slot's doorbell is rung with.
    #[derive(Clone, Copy, Debug, Default)]
    pub struct Register {
        target: u8,
    }

    impl Register {
        pub fn set_doorbell_target(&mut self, target: u8) -> &mut Self {
            self.target = target;
            self
        }
        pub fn target(&self) -> u8 {
            self.target
        }
    }
}
