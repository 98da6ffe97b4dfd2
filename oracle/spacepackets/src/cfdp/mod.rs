//! The numbers of CCSDS 727.0-B-5 that have names.

pub mod pdu;
pub mod tlv;

/// An enum whose cases are numbers, with `TryFrom<u8>`; the error is the number.
macro_rules! numbered {
    ($(#[$doc:meta])* $name:ident { $($(#[$attr:meta])* $case:ident = $number:literal),+ $(,)? }) => {
        $(#[$doc])*
        #[derive(Debug, Clone, Copy, PartialEq, Eq)]
        pub enum $name { $($(#[$attr])* $case = $number),+ }

        impl TryFrom<u8> for $name {
            type Error = u8;

            fn try_from(number: u8) -> Result<Self, u8> {
                match number {
                    $($number => Ok(Self::$case),)+
                    _ => Err(number),
                }
            }
        }
    };
}
pub(crate) use numbered;

numbered!(PduType { FileDirective = 0, FileData = 1 });
numbered!(Direction { TowardsReceiver = 0, TowardsSender = 1 });
numbered!(TransmissionMode { Acknowledged = 0, Unacknowledged = 1 });
numbered!(LargeFileFlag { Normal = 0, Large = 1 });
numbered!(SegmentMetadataFlag { NotPresent = 0, Present = 1 });
numbered!(FaultHandlerCode {
    NoticeOfCancellation = 1,
    NoticeOfSuspension = 2,
    IgnoreError = 3,
    AbandonTransaction = 4,
});
numbered!(ConditionCode {
    NoError = 0,
    PositiveAckLimitReached = 1,
    KeepAliveLimitReached = 2,
    InvalidTransmissionMode = 3,
    FilestoreRejection = 4,
    FileChecksumFailure = 5,
    FileSizeError = 6,
    NakLimitReached = 7,
    InactivityDetected = 8,
    CheckLimitReached = 10,
    UnsupportedChecksumType = 11,
    SuspendRequestReceived = 14,
    CancelRequestReceived = 15,
});

/// The checksum type of a Metadata PDU. Numbers that the standard's registry leaves open are kept as they are.
#[derive(Debug, Clone, Copy, PartialEq, Eq)]
pub enum ChecksumType {
    Modular,
    Crc32Proximity1,
    Crc32C,
    Crc32,
    NullChecksum,
    Reserved(u8),
}

impl From<u8> for ChecksumType {
    fn from(number: u8) -> Self {
        match number {
            0 => Self::Modular,
            1 => Self::Crc32Proximity1,
            2 => Self::Crc32C,
            3 => Self::Crc32,
            15 => Self::NullChecksum,
            _ => Self::Reserved(number),
        }
    }
}

impl Default for ChecksumType {
    fn default() -> Self {
        Self::NullChecksum
    }
}
