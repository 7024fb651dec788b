//! The TLB: its 16 entries, the search through them, and their invalidation.

pub const ENTRIES: usize = 16;

/// Page sizes, as the number of address bits inside a page.
pub const SMALL_PAGE: u32 = 12;
pub const LARGE_PAGE: u32 = 21;

/// One of the two pages that an entry maps.
#[derive(Clone, Copy, Debug, PartialEq, Eq)]
pub struct Page {
    pub valid: bool,
    pub dirty: bool,
    pub privilege: u32,
    pub access_type: u32,
    pub frame: u32,
}

#[derive(Clone, Copy, Debug, PartialEq, Eq)]
pub struct Entry {
    pub exists: bool,
    pub address_space: u32,
    pub global: bool,
    pub page_size: u32,
    pub vppn: u32,
    /// The even page and the odd one.
    pub pages: [Page; 2],
}

impl Entry {
    pub const AT_RESET: Entry = {
        let page = Page {
            valid: false,
            dirty: false,
            privilege: 0,
            access_type: 0,
            frame: 0,
        };
        Entry {
            exists: false,
            address_space: 0,
            global: false,
            page_size: SMALL_PAGE,
            vppn: 0,
            pages: [page; 2],
        }
    };

    /// Whether the address lies in the two pages: its bits above bit PS are the entry's.
    fn covers(&self, address: u32) -> bool {
        (address ^ self.vppn << 13) >> (self.page_size + 1) == 0
    }

    fn fits(&self, address: u32, address_space: u32) -> bool {
        self.exists && (self.global || self.address_space == address_space) && self.covers(address)
    }

    /// The page that an address covered by the entry is in.
    pub fn page_of(&self, address: u32) -> &Page {
        &self.pages[(address >> self.page_size & 1) as usize]
    }

    /// The physical address of an address in that page.
    pub fn physical(&self, page: &Page, address: u32) -> u32 {
        let inside = (1 << self.page_size) - 1;
        page.frame << 12 & !inside | address & inside
    }

    /// Whether `invtlb` with this op empties the entry.
    fn is_selected(&self, op: u32, address_space: u32, address: u32) -> bool {
        let is_of_space = self.address_space == address_space;
        match op {
            0 | 1 => true,
            2 => self.global,
            3 => !self.global,
            4 => !self.global && is_of_space,
            5 => !self.global && is_of_space && self.covers(address),
            6 => (self.global || is_of_space) && self.covers(address),
            _ => false,
        }
    }
}

#[derive(Clone, Debug, PartialEq, Eq)]
pub struct Tlb {
    entries: [Entry; ENTRIES],
    /// Where the next `tlbfill` writes.
    fill_place: usize,
}

impl Tlb {
    pub fn at_reset() -> Tlb {
        Tlb {
            entries: [Entry::AT_RESET; ENTRIES],
            fill_place: 0,
        }
    }

    pub fn entry(&self, index: usize) -> &Entry {
        &self.entries[index]
    }

    pub fn fill_place(&self) -> usize {
        self.fill_place
    }

    /// The number of the first entry that fits, for `tlbsrch`.
    pub fn find(&self, address: u32, address_space: u32) -> Option<usize> {
        self.entries
            .iter()
            .position(|entry| entry.fits(address, address_space))
    }

    /// The first entry that fits, for translation.
    pub fn entry_for(&self, address: u32, address_space: u32) -> Option<&Entry> {
        self.find(address, address_space)
            .map(|index| &self.entries[index])
    }

    pub fn write(&mut self, index: usize, entry: Entry) {
        self.entries[index] = entry;
    }

    pub fn fill(&mut self, entry: Entry) {
        self.entries[self.fill_place] = entry;
        self.fill_place = (self.fill_place + 1) % ENTRIES;
    }

    pub fn invalidate(&mut self, op: u32, address_space: u32, address: u32) {
        for entry in &mut self.entries {
            if entry.is_selected(op, address_space, address) {
                entry.exists = false;
            }
        }
    }
}
