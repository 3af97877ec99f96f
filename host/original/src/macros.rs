//! Macros that the original's files use by name.

macro_rules! anyhow {
    ($($text:tt)*) => { usb_if::err::Text(format!($($text)*)) };
}

macro_rules! debug {
    ($($text:tt)*) => {
        if false {
            let _ = format_args!($($text)*);
        }
    };
}

macro_rules! trace {
    ($($text:tt)*) => { debug!($($text)*) };
}

macro_rules! warn {
    ($($text:tt)*) => { debug!($($text)*) };
}

macro_rules! error {
    ($($text:tt)*) => { debug!($($text)*) };
}

macro_rules! define_int_type {
    ($name:ident, $int:ty) => {
        #[derive(Clone, Copy, Debug, PartialEq, Eq, PartialOrd, Ord, Hash)]
        pub struct $name(pub(crate) $int);

        impl $name {
            pub fn raw(&self) -> $int {
                self.0
            }
        }

        impl From<$int> for $name {
            fn from(value: $int) -> Self {
                Self(value)
            }
        }

        impl From<$name> for $int {
            fn from(value: $name) -> Self {
                value.0
            }
        }

        impl core::fmt::Display for $name {
            fn fmt(&self, f: &mut core::fmt::Formatter<'_>) -> core::fmt::Result {
                core::fmt::Display::fmt(&self.0, f)
            }
        }
    };
}
