//! Why a call was not done.

use std::fmt;

/// What a call answers.
pub type Result<T> = std::result::Result<T, Error>;

/// The plain refusals: each with its number in takhvoi.h and its text.
macro_rules! refusals {
    ($($name:ident $number:literal $text:literal;)*) => {
        /// Why a call was not done. Where the kernel refuses, and where the library does, the kernel is as it was.
        #[non_exhaustive]
        #[derive(Clone, Copy, Debug, PartialEq, Eq)]
        pub enum Error {
            $(#[doc = $text] $name,)*
            /// no VM file
            BadFile {
                /// of its first field that is faulty or cut
                offset: u64,
            },
            /// no image
            BadImage {
                /// of its first faulty byte
                offset: u64,
            },
            /// the verifier refuses the image
            Refused {
                /// the first that a rule refuses
                instruction: u64,
                /// the number of the rule
                rule: u32,
            },
            /// a public routine does something that is not granted
            NotGranted {
                /// its number
                routine: u16,
                /// the one that does it, in the routine or in one that it calls
                instruction: u64,
                /// its bit
                effect: u32,
            },
            /// a text with a fault
            BadText {
                /// of the fault, from 1 on
                line: u64,
            },
            /// a text with a routine for which no rows are found
            NoRows {
                /// of the routine, from 1 on
                line: u64,
            },
            /// the library has another interface than this crate was made for
            OtherInterface,
            /// a number that this crate does not know
            Other(u32),
        }

        impl Error {
            /// The number that takhvoi.h has for it.
            pub fn number(self) -> u32 {
                match self {
                    $(Error::$name => $number,)*
                    Error::BadFile { .. } => 110,
                    Error::BadImage { .. } | Error::BadText { .. } => 112,
                    Error::Refused { .. } | Error::NoRows { .. } => 113,
                    Error::NotGranted { .. } => 116,
                    Error::OtherInterface => u32::MAX,
                    Error::Other(number) => number,
                }
            }

            /// What a number of takhvoi.h stands for; the places of the variants that have one are 0.
            pub fn from_number(number: u32) -> Error {
                match number {
                    $($number => Error::$name,)*
                    110 => Error::BadFile { offset: 0 },
                    112 => Error::BadImage { offset: 0 },
                    113 => Error::Refused { instruction: 0, rule: 0 },
                    116 => Error::NotGranted { routine: 0, instruction: 0, effect: 0 },
                    _ => Error::Other(number),
                }
            }

            /// What takhvoi.h says of its number.
            pub fn text(self) -> &'static str {
                match self {
                    $(Error::$name => $text,)*
                    Error::BadFile { .. } => "no VM file",
                    Error::BadImage { .. } | Error::BadText { .. } => "no image, or a faulty text",
                    Error::Refused { .. } | Error::NoRows { .. } => "the verifier refuses",
                    Error::NotGranted { .. } => "it does something that is not granted",
                    Error::OtherInterface => "the library has another interface",
                    Error::Other(_) => "no such number",
                }
            }
        }
    };
}

refusals! {
    BadHandle 1 "no block of this kind has this handle";
    BadChunk 2 "no chunk has this handle";
    Short 3 "the chunk or element is too short";
    NoRoom 4 "no room in the region";
    NoHandle 5 "no handle is free";
    TooBig 6 "too big";
    Locked 7 "the block is locked";
    BadArray 8 "the chunk is no such array";
    BadElement 9 "no element has this index";
    Full 10 "no more words can be put out";
    Disk 11 "the device failed";
    Unsure 12 "it is not sure what the device holds";
    Memory 13 "out of memory";
    Range 14 "out of range";
    Reserved 15 "the user ID is reserved for groups";
    NoKernel 100 "no kernel is open";
    NotLocked 101 "the block is not locked";
    NotMarked 102 "the block is not marked as changed";
    FileLocked 103 "a block of the VM file is locked";
    HasKernel 104 "a kernel is open already";
    BadSize 105 "a size or range is past its limits";
    Pending 106 "the host has not performed what is noted";
    NoMemory 111 "there is no memory";
    NotAdmitted 114 "no such image or routine, or it takes other words or blocks";
    ShortBuffer 115 "the buffer is too short";
    NoFile 200 "no such file or folder";
    FileIsThere 201 "the file is there already";
    FileInUse 202 "another has the file's lock";
    NoAccess 203 "the system refuses the file";
    NullPointer 210 "a pointer is null";
}

impl fmt::Display for Error {
    fn fmt(&self, out: &mut fmt::Formatter<'_>) -> fmt::Result {
        match self {
            Error::BadFile { offset } => write!(out, "no VM file: byte {offset}"),
            Error::BadImage { offset } => write!(out, "no image: byte {offset}"),
            Error::BadText { line } => write!(out, "a faulty text: line {line}"),
            Error::Refused { instruction, rule } => write!(out, "the verifier refuses: instruction {instruction}, rule {rule}"),
            Error::NotGranted { routine, instruction, effect } => {
                write!(out, "routine {routine} does something that is not granted: instruction {instruction}, effect {effect}")
            }
            Error::NoRows { line } => write!(out, "no rows are found for a routine: line {line}"),
            Error::Other(number) => write!(out, "no such number: {number}"),
            _ => out.write_str(self.text()),
        }
    }
}

impl std::error::Error for Error {}

/// That a call with this answer was done.
pub(crate) fn done(status: u32) -> Result<()> {
    match status {
        0 => Ok(()),
        number => Err(Error::from_number(number)),
    }
}
