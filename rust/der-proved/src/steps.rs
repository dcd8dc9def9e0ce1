//! Steps of a standard that refuse what is checked.

/// Steps, each with its number.
macro_rules! steps {
    ($(#[$doc:meta])* $name:ident { $($(#[$of:meta])* $step:ident = $number:literal,)* }) => {
        $(#[$doc])*
        #[derive(Clone, Copy, Debug, PartialEq, Eq)]
        #[non_exhaustive]
        #[repr(u32)]
        pub enum $name {
            $($(#[$of])* $step = $number,)*
        }

        impl $name {
            /// The number, which never changes its meaning.
            pub fn number(self) -> u32 {
                self as u32
            }

            /// The step with a number.
            fn of(number: u32) -> Option<$name> {
                match number {
                    $($number => Some($name::$step),)*
                    _ => None,
                }
            }
        }
    };
}

pub(crate) use steps;
