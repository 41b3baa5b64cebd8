//! Why a call was refused.
use std::fmt;

// One line for each status of `zelamiku.h`: its number, its name here, and its text.
macro_rules! refusals {
    ($($number:literal $name:ident $text:literal)*) => {
        /// Why a call was refused: a status of `zelamiku.h`, by its name.
        #[non_exhaustive]
        #[derive(Clone, Copy, Debug, PartialEq, Eq, Hash)]
        pub enum Refusal {
            $(#[doc = $text] $name,)*
            /// A status that this crate has no name for.
            Unknown(u32),
        }

        impl From<u32> for Refusal {
            fn from(status: u32) -> Refusal {
                match status {
                    $($number => Refusal::$name,)*
                    other => Refusal::Unknown(other),
                }
            }
        }

        impl fmt::Display for Refusal {
            fn fmt(&self, f: &mut fmt::Formatter<'_>) -> fmt::Result {
                match self {
                    $(Refusal::$name => f.write_str($text),)*
                    Refusal::Unknown(status) => write!(f, "status {status}"),
                }
            }
        }
    };
}

refusals! {
    1 Nothing "nothing is open by this handle"
    4 NoMemory "there was no memory"
    6 NoneLeft "all lanes are in use"
    9 Running "a section is open or a thread waits"
    10 UnknownObject "there is no such object"
    11 UnknownField "there is no such field"
    12 NotHeld "the thread doesn't hold the monitor"
    13 Behind "there is no room for a whole section's records before a round"
    14 SectionFull "the section would have more than 1,000 records"
    15 TooMany "the thread holds 16 monitors"
    16 TooDeep "the thread has 65,536 locks of the monitor"
    17 NoFat "1,024 other monitors were waited on, or locked more than 256 times, since the open"
    18 Worn "a number has reached its limit"
    19 Held "another thread has the monitor"
    22 Failed "the heap has stopped: there was no memory for the calls of the device"
    24 BadArgument "an argument is wrong"
    25 NotFormatted "it has no heap, and isn't empty"
    27 TooSmall "the device has fewer bytes than the heap takes"
    32 Device "a call of the file or the device has failed"
    33 Lost "a sync has failed, the connection has ended or the file was closed, and the heap has stopped"
    34 Busy "another process has the heap"
    36 PoolEmpty "no slot of the pool is free"
    37 NotTaken "the slot isn't taken, or the pool has no such slot"
    38 Damaged "a field of the pool names no slot"
    39 Closed "the heap was closed or stopped"
    40 OldVersion "the heap has version 1, from before there were transient fields"
    41 Forked "the heap belongs to the parent process"
    42 Abandoned "the heap was abandoned"
    43 OtherHeap "the file's heap isn't that of the plan"
    45 NoHeap "there is no heap"
    46 DamagedFile "the file's heap can't be read"
    47 NotReverted "the section can't be reverted"
}

impl std::error::Error for Refusal {}
