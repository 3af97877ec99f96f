pub mod trb {
    /// The end of a ring that goes round (xHCI 1.2, 6.4.4.1).
    #[derive(Clone, Copy, Debug)]
    pub struct Link([u32; 4]);

    impl Default for Link {
        fn default() -> Self {
            Self([0, 0, 0, 6 << 10])
        }
    }

    impl Link {
        pub fn new() -> Self {
            Self::default()
        }
        pub fn set_ring_segment_pointer(&mut self, address: u64) -> &mut Self {
            (self.0[0], self.0[1]) = (address as u32, (address >> 32) as u32);
            self
        }
        pub fn set_toggle_cycle(&mut self) -> &mut Self {
            self.0[3] |= 2;
            self
        }
        pub fn set_cycle_bit(&mut self) -> &mut Self {
            self.0[3] |= 1;
            self
        }
        pub fn clear_cycle_bit(&mut self) -> &mut Self {
            self.0[3] &= !1;
            self
        }
    }

    /// Transfers as their doublewords (xHCI 1.2, 6.4.1): pointer, length, type and cycle bit. What else a setter says is
    /// not kept.
    pub mod transfer {
        #[derive(Clone, Copy, Debug)]
        pub enum Direction {
            Out,
            In,
        }

        #[derive(Clone, Copy, Debug)]
        pub enum TransferType {
            No,
            Out,
            In,
        }

        macro_rules! unkept {
            ($($name:ident($($value:ty)?))*) => {
                $(
                    pub fn $name(&mut self $(, _: $value)?) -> &mut Self {
                        self
                    }
                )*
            };
        }

        macro_rules! transfers {
            ($($name:ident = $kind:literal)*) => {
                $(
                    #[derive(Clone, Copy, Debug)]
                    pub struct $name([u32; 4]);

                    impl Default for $name {
                        fn default() -> Self {
                            Self([0, 0, 0, $kind << 10])
                        }
                    }

                    impl $name {
                        pub fn new() -> Self {
                            Self::default()
                        }
                        pub fn set_data_buffer_pointer(&mut self, address: u64) -> &mut Self {
                            (self.0[0], self.0[1]) = (address as u32, (address >> 32) as u32);
                            self
                        }
                        pub fn set_trb_transfer_length(&mut self, length: u32) -> &mut Self {
                            self.0[2] = length;
                            self
                        }
                        unkept! {
                            set_interrupter_target(u16)
                            set_interrupt_on_completion()
                            set_interrupt_on_short_packet()
                        }
                    }

                    impl From<$name> for Allowed {
                        fn from(trb: $name) -> Self {
                            Self::$name(trb)
                        }
                    }
                )*

                #[derive(Clone, Copy, Debug)]
                pub enum Allowed {
                    $($name($name),)*
                }

                impl Allowed {
                    fn dwords(&mut self) -> &mut [u32; 4] {
                        match self {
                            $(Self::$name(trb) => &mut trb.0,)*
                        }
                    }
                }
            };
        }

        transfers! {
            Normal = 1
            SetupStage = 2
            DataStage = 3
            StatusStage = 4
            Isoch = 5
        }

        impl Allowed {
            pub fn set_cycle_bit(&mut self) -> &mut Self {
                self.dwords()[3] |= 1;
                self
            }
            pub fn clear_cycle_bit(&mut self) -> &mut Self {
                self.dwords()[3] &= !1;
                self
            }
            pub fn into_raw(mut self) -> [u32; 4] {
                *self.dwords()
            }
        }

        impl SetupStage {
            unkept! {
                set_request_type(u8)
                set_request(u8)
                set_value(u16)
                set_index(u16)
                set_length(u16)
                set_transfer_type(TransferType)
            }
        }

        impl DataStage {
            unkept! { set_direction(Direction) }
        }

        impl StatusStage {
            unkept! {
                set_direction()
                clear_direction()
            }
        }

        impl Isoch {
            unkept! {
                set_start_isoch_asap()
                set_frame_id(u16)
                set_td_size_or_tbc(u8)
                set_transfer_last_burst_packet_count(u8)
                set_block_event_interrupt()
            }
        }
    }

    /// Commands, with what the log needs of them.
    pub mod command {
        use super::Link;

        macro_rules! commands {
            ($($name:ident)*) => {
                $(
                    #[derive(Clone, Copy, Debug, Default)]
                    pub struct $name {
                        pub slot: u8,
                        pub endpoint: u8,
                    }

                    impl $name {
                        pub fn new() -> Self {
                            Self::default()
                        }
                        pub fn set_slot_id(&mut self, slot: u8) -> &mut Self {
                            self.slot = slot;
                            self
                        }
                        pub fn set_endpoint_id(&mut self, endpoint: u8) -> &mut Self {
                            self.endpoint = endpoint;
                            self
                        }
                        pub fn set_input_context_pointer(&mut self, _address: u64) -> &mut Self {
                            self
                        }
                    }
                )*

                #[derive(Clone, Copy, Debug)]
                pub enum Allowed {
                    $($name($name),)*
                    Link(Link),
                }
            };
        }

        commands! {
            AddressDevice
            EvaluateContext
            ConfigureEndpoint
            StopEndpoint
            ResetEndpoint
            SetTrDequeuePointer
            DisableSlot
        }

        impl SetTrDequeuePointer {
            pub fn set_new_tr_dequeue_pointer(&mut self, _address: u64) -> &mut Self {
                self
            }
            pub fn set_dequeue_cycle_state(&mut self) -> &mut Self {
                self
            }
            pub fn clear_dequeue_cycle_state(&mut self) -> &mut Self {
                self
            }
        }

        /// No command ring runs here: of these only the link stands in a ring.
        impl Allowed {
            pub fn set_cycle_bit(&mut self) -> &mut Self {
                self
            }
            pub fn clear_cycle_bit(&mut self) -> &mut Self {
                self
            }
            pub fn into_raw(self) -> [u32; 4] {
                match self {
                    Self::Link(link) => link.0,
                    _ => [0; 4],
                }
            }
        }
    }

    pub mod event {
        #[derive(Clone, Copy, Debug, PartialEq, Eq)]
        pub enum CompletionCode {
            Success,
            BabbleDetectedError,
            UsbTransactionError,
            StallError,
            ShortPacket,
            RingUnderrun,
            RingOverrun,
            MissedServiceError,
            Stopped,
            StoppedLengthInvalid,
            StoppedShortPacket,
            IsochBufferOverrun,
        }

        /// The end of a transfer, and how many bytes of it were left.
        #[derive(Clone, Copy, Debug)]
        pub struct TransferEvent {
            code: CompletionCode,
            left: u32,
        }

        impl TransferEvent {
            pub fn new(code: CompletionCode, left: u32) -> Self {
                Self { code, left }
            }
            pub fn completion_code(&self) -> Result<CompletionCode, u8> {
                Ok(self.code)
            }
            pub fn trb_transfer_length(&self) -> u32 {
                self.left
            }
        }

        #[derive(Clone, Copy, Debug)]
        pub struct CommandCompletion;
    }
}
