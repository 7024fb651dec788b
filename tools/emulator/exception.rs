//! Exceptions: their codes, and which of them leave an address behind.

/// What brings an exception about.
#[derive(Clone, Copy, Debug, PartialEq, Eq)]
pub enum Cause {
    Interrupt,
    LoadPageInvalid,
    StorePageInvalid,
    FetchPageInvalid,
    PageModified,
    PagePrivilege,
    FetchAddress,
    Alignment,
    SystemCall,
    Break,
    UndefinedInstruction,
    PrivilegedInstruction,
    TlbRefill,
}

impl Cause {
    /// Ecode. EsubCode is 0 for every cause here.
    pub fn code(self) -> u32 {
        match self {
            Cause::Interrupt => 0x0,
            Cause::LoadPageInvalid => 0x1,
            Cause::StorePageInvalid => 0x2,
            Cause::FetchPageInvalid => 0x3,
            Cause::PageModified => 0x4,
            Cause::PagePrivilege => 0x7,
            Cause::FetchAddress => 0x8,
            Cause::Alignment => 0x9,
            Cause::SystemCall => 0xB,
            Cause::Break => 0xC,
            Cause::UndefinedInstruction => 0xD,
            Cause::PrivilegedInstruction => 0xE,
            Cause::TlbRefill => 0x3F,
        }
    }

    /// Whether translation raises it, and TLBEHI then holds the page.
    pub fn is_of_translation(self) -> bool {
        matches!(
            self,
            Cause::LoadPageInvalid
                | Cause::StorePageInvalid
                | Cause::FetchPageInvalid
                | Cause::PageModified
                | Cause::PagePrivilege
                | Cause::TlbRefill
        )
    }
}

/// An exception, with the address that BADV gets, if it gets one.
#[derive(Clone, Copy, Debug, PartialEq, Eq)]
pub struct Exception {
    pub cause: Cause,
    pub address: Option<u32>,
}

impl Exception {
    pub fn at(cause: Cause, address: u32) -> Exception {
        Exception {
            cause,
            address: Some(address),
        }
    }
}

impl From<Cause> for Exception {
    fn from(cause: Cause) -> Exception {
        Exception {
            cause,
            address: None,
        }
    }
}
