//! The bus: absent, fixed and open addresses, the parts that hold bytes, and the layers over them.

use std::fmt;

/// Why a bus does not do what it was asked, with the lowest byte at fault where one is.
#[derive(Clone, Copy, Debug, PartialEq, Eq)]
pub enum Refusal {
    Misaligned,
    Absent(u32),
    Fixed(u32),
}

impl Refusal {
    pub fn number(self) -> u32 {
        match self {
            Refusal::Misaligned => 7,
            Refusal::Absent(_) => 8,
            Refusal::Fixed(_) => 9,
        }
    }
}

impl fmt::Display for Refusal {
    fn fmt(&self, f: &mut fmt::Formatter) -> fmt::Result {
        write!(f, "refused {}", self.number())?;
        match self {
            Refusal::Misaligned => Ok(()),
            Refusal::Absent(address) | Refusal::Fixed(address) => write!(f, " at 0x{address:08X}"),
        }
    }
}

/// A bus, asked for `N` bytes at a multiple of `N`, where `N` is 1, 2 or 4: whoever asks sees to that.
///
/// Every part and layer begins and ends at a multiple of 4, so such an access lies in one of them as
/// a whole, and the lowest byte at fault is always the access's own address.
pub trait Bus {
    fn read<const N: usize>(&self, address: u32) -> Result<[u8; N], Refusal>;
    fn write<const N: usize>(&mut self, address: u32, bytes: [u8; N]) -> Result<(), Refusal>;
}

/// Reads `width` bytes, whatever the width and the address are.
pub fn read_any<B: Bus>(bus: &B, address: u32, width: u32) -> Result<u32, Refusal> {
    match width {
        1 => Ok(u32::from(u8::from_le_bytes(bus.read(address)?))),
        2 if address.is_multiple_of(2) => Ok(u32::from(u16::from_le_bytes(bus.read(address)?))),
        4 if address.is_multiple_of(4) => Ok(u32::from_le_bytes(bus.read(address)?)),
        _ => Err(Refusal::Misaligned),
    }
}

/// Writes a word, whatever the address is.
pub fn write_word<B: Bus>(bus: &mut B, address: u32, word: u32) -> Result<(), Refusal> {
    if !address.is_multiple_of(4) {
        return Err(Refusal::Misaligned);
    }
    bus.write(address, word.to_le_bytes())
}

/// A range of addresses whose base and length were found to be in order.
#[derive(Clone, Copy)]
pub struct Span {
    base: u32,
    length: u32,
}

impl Span {
    /// None where base or length is no multiple of 4, the length is 0, or the end is above 2^32.
    pub fn new(base: u32, length: u32) -> Option<Span> {
        let is_aligned = base.is_multiple_of(4) && length.is_multiple_of(4);
        let ends_in_range = u64::from(base) + u64::from(length) <= 1 << 32;
        (is_aligned && length != 0 && ends_in_range).then_some(Span { base, length })
    }

    fn offset_of(self, address: u32) -> Option<u32> {
        let offset = address.wrapping_sub(self.base);
        (offset < self.length).then_some(offset)
    }

    fn contains(self, address: u32) -> bool {
        self.offset_of(address).is_some()
    }
}

/// Open memory from a base on.
pub struct Bank {
    base: u32,
    memory: Vec<u8>,
}

impl Bank {
    /// A bank of refused numbers is absent everywhere, so it keeps no memory.
    pub fn new(base: u32, memory: Vec<u8>) -> Bank {
        let length = u32::try_from(memory.len()).unwrap_or(0);
        match Span::new(base, length) {
            Some(_) => Bank { base, memory },
            None => Bank {
                base,
                memory: Vec::new(),
            },
        }
    }

    /// Where an address lies in the memory, which ends before any address that is not the bank's.
    fn index(&self, address: u32) -> usize {
        address.wrapping_sub(self.base) as usize
    }
}

impl Bus for Bank {
    #[inline]
    fn read<const N: usize>(&self, address: u32) -> Result<[u8; N], Refusal> {
        let index = self.index(address);
        match self
            .memory
            .get(index..index + N)
            .and_then(|bytes| bytes.first_chunk())
        {
            Some(bytes) => Ok(*bytes),
            None => Err(Refusal::Absent(address)),
        }
    }

    #[inline]
    fn write<const N: usize>(&mut self, address: u32, bytes: [u8; N]) -> Result<(), Refusal> {
        let index = self.index(address);
        match self.memory.get_mut(index..index + N) {
            Some(place) => {
                place.copy_from_slice(&bytes);
                Ok(())
            }
            None => Err(Refusal::Absent(address)),
        }
    }
}

/// Fixed memory from a base on.
pub struct Image(Bank);

impl Image {
    pub fn new(base: u32, memory: Vec<u8>) -> Image {
        Image(Bank::new(base, memory))
    }
}

impl Bus for Image {
    #[inline]
    fn read<const N: usize>(&self, address: u32) -> Result<[u8; N], Refusal> {
        self.0.read(address)
    }

    #[inline]
    fn write<const N: usize>(&mut self, address: u32, _bytes: [u8; N]) -> Result<(), Refusal> {
        self.0.read::<N>(address)?;
        Err(Refusal::Fixed(address))
    }
}

/// Two buses: the first below a border, the second from it on.
pub struct Split<A, B> {
    border: Option<u32>,
    below: A,
    above: B,
}

impl<A: Bus, B: Bus> Split<A, B> {
    /// A border that is no multiple of 4 makes a split that is absent everywhere.
    pub fn new(border: u32, below: A, above: B) -> Split<A, B> {
        let border = border.is_multiple_of(4).then_some(border);
        Split {
            border,
            below,
            above,
        }
    }
}

impl<A: Bus, B: Bus> Bus for Split<A, B> {
    #[inline]
    fn read<const N: usize>(&self, address: u32) -> Result<[u8; N], Refusal> {
        match self.border {
            Some(border) if address < border => self.below.read(address),
            Some(_) => self.above.read(address),
            None => Err(Refusal::Absent(address)),
        }
    }

    #[inline]
    fn write<const N: usize>(&mut self, address: u32, bytes: [u8; N]) -> Result<(), Refusal> {
        match self.border {
            Some(border) if address < border => self.below.write(address, bytes),
            Some(_) => self.above.write(address, bytes),
            None => Err(Refusal::Absent(address)),
        }
    }
}

/// The inner bus from its address 0 on, moved to a span's base and cut at its length.
pub struct Shift<B> {
    span: Option<Span>,
    inner: B,
}

impl<B: Bus> Shift<B> {
    /// Without a span, which is what refused numbers give, the shift is absent everywhere.
    pub fn new(span: Option<Span>, inner: B) -> Shift<B> {
        Shift { span, inner }
    }

    fn inner_address(&self, address: u32) -> Result<u32, Refusal> {
        let offset = self.span.and_then(|span| span.offset_of(address));
        offset.ok_or(Refusal::Absent(address))
    }
}

impl<B: Bus> Bus for Shift<B> {
    #[inline]
    fn read<const N: usize>(&self, address: u32) -> Result<[u8; N], Refusal> {
        let inner_address = self.inner_address(address)?;
        self.inner
            .read(inner_address)
            .map_err(|refusal| seen_at(address, refusal))
    }

    #[inline]
    fn write<const N: usize>(&mut self, address: u32, bytes: [u8; N]) -> Result<(), Refusal> {
        let inner_address = self.inner_address(address)?;
        self.inner
            .write(inner_address, bytes)
            .map_err(|refusal| seen_at(address, refusal))
    }
}

/// An inner bus's refusal with the outer address, which is the access's own on both sides.
fn seen_at(address: u32, refusal: Refusal) -> Refusal {
    match refusal {
        Refusal::Misaligned => Refusal::Misaligned,
        Refusal::Absent(_) => Refusal::Absent(address),
        Refusal::Fixed(_) => Refusal::Fixed(address),
    }
}

/// The inner bus, whose open bytes inside a span are fixed.
pub struct Lock<B> {
    span: Option<Span>,
    inner: B,
}

impl<B: Bus> Lock<B> {
    /// Without a span, which is what refused numbers give, the lock is absent everywhere.
    pub fn new(span: Option<Span>, inner: B) -> Lock<B> {
        Lock { span, inner }
    }
}

impl<B: Bus> Bus for Lock<B> {
    #[inline]
    fn read<const N: usize>(&self, address: u32) -> Result<[u8; N], Refusal> {
        match self.span {
            Some(_) => self.inner.read(address),
            None => Err(Refusal::Absent(address)),
        }
    }

    #[inline]
    fn write<const N: usize>(&mut self, address: u32, bytes: [u8; N]) -> Result<(), Refusal> {
        match self.span {
            Some(span) if span.contains(address) => {
                // A byte that is absent below the lock is absent, and not fixed.
                self.inner.read::<N>(address)?;
                Err(Refusal::Fixed(address))
            }
            Some(_) => self.inner.write(address, bytes),
            None => Err(Refusal::Absent(address)),
        }
    }
}
