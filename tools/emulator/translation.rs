//! Translation of a program's address to one on the bus: direct, by a window, or by the TLB.
//! Access types (DATF, DATM, MAT) are not looked at, since there is no cache that they could rule.

use crate::csr::ControlRegisters;
use crate::exception::{Cause, Exception};
use crate::tlb::{Page, Tlb};

/// What an address is for.
#[derive(Clone, Copy, Debug, PartialEq, Eq)]
pub enum AccessKind {
    Fetch,
    Load,
    Store,
}

impl AccessKind {
    pub fn number(self) -> u32 {
        match self {
            AccessKind::Fetch => 1,
            AccessKind::Load => 2,
            AccessKind::Store => 3,
        }
    }
}

#[inline]
pub fn translate(
    csr: &ControlRegisters,
    tlb: &Tlb,
    address: u32,
    kind: AccessKind,
) -> Result<u32, Exception> {
    if csr.has_direct_addresses() {
        return Ok(address);
    }
    match by_window(csr, address) {
        Some(physical) => Ok(physical),
        None => by_tlb(csr, tlb, address, kind),
    }
}

/// DMW1 is asked first: it counts where both windows apply.
fn by_window(csr: &ControlRegisters, address: u32) -> Option<u32> {
    let [window_0, window_1] = csr.windows();
    [window_1, window_0]
        .into_iter()
        .find(|&window| window_applies(window, csr.privilege(), address))
        .map(|window| (window >> 25 & 0b111) << 29 | address & 0x1FFF_FFFF)
}

/// A window has its bits for PLV0 and PLV3 at bits 0 and 3, and the segment at bits 31:29.
fn window_applies(window: u32, privilege: u32, address: u32) -> bool {
    window >> privilege & 1 != 0 && window >> 29 == address >> 29
}

fn by_tlb(
    csr: &ControlRegisters,
    tlb: &Tlb,
    address: u32,
    kind: AccessKind,
) -> Result<u32, Exception> {
    let Some(entry) = tlb.entry_for(address, csr.address_space()) else {
        return Err(Exception::at(Cause::TlbRefill, address));
    };
    let page = entry.page_of(address);
    match page_exception(page, csr.privilege(), kind) {
        Some(cause) => Err(Exception::at(cause, address)),
        None => Ok(entry.physical(page, address)),
    }
}

/// Why a page does not admit an access.
fn page_exception(page: &Page, privilege: u32, kind: AccessKind) -> Option<Cause> {
    if !page.valid {
        return Some(match kind {
            AccessKind::Fetch => Cause::FetchPageInvalid,
            AccessKind::Load => Cause::LoadPageInvalid,
            AccessKind::Store => Cause::StorePageInvalid,
        });
    }
    if privilege > page.privilege {
        return Some(Cause::PagePrivilege);
    }
    if kind == AccessKind::Store && !page.dirty {
        return Some(Cause::PageModified);
    }
    None
}
