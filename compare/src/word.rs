//! The words of a circuit file: how each kind lays out its fields.
//!
//! The writers below take any field value that fits its bits, right or wrong, because the
//! generators write wrong files too.

/// A word as it lies in the file, little-endian.
pub type Bytes = [u8; 4];

pub const HEAD: u32 = 1 << 28;
pub const END: u32 = 11 << 28;

/// What a word is for, by its bits 31 to 28.
#[derive(Clone, Copy, Debug, PartialEq, Eq)]
pub enum Kind {
    Head,
    Input,
    Add,
    Scale,
    Multiply,
    Project,
    Entry,
    Select,
    Branches,
    Output,
    End,
}

impl Kind {
    /// The kind with this number, if there is one.
    pub const fn numbered(number: u32) -> Option<Kind> {
        Some(match number {
            1 => Kind::Head,
            2 => Kind::Input,
            3 => Kind::Add,
            4 => Kind::Scale,
            5 => Kind::Multiply,
            6 => Kind::Project,
            7 => Kind::Entry,
            8 => Kind::Select,
            9 => Kind::Branches,
            10 => Kind::Output,
            11 => Kind::End,
            _ => return None,
        })
    }

    /// The bits that hold this kind's fields; all others below bit 28 must be zero.
    pub const fn fields(self) -> u32 {
        match self {
            Kind::Head | Kind::End => 0,
            Kind::Input => 0x00FF_00FF,
            Kind::Add | Kind::Multiply | Kind::Branches => 0x000F_FFFF,
            Kind::Scale | Kind::Project | Kind::Output => 0x0003_FFFF,
            Kind::Entry => 0x0000_00FF,
            Kind::Select => 0x0000_03FF,
        }
    }

    /// The kind of a well-formed word: a known kind, and no bit set outside its fields.
    pub const fn of(word: u32) -> Option<Kind> {
        match Kind::numbered(word >> 28) {
            Some(kind) if word & 0x0FFF_FFFF & !kind.fields() == 0 => Some(kind),
            _ => None,
        }
    }
}

pub const fn input(owner: u32, modulus: u32) -> u32 {
    2 << 28 | owner << 16 | modulus
}

pub const fn add(a: u32, b: u32) -> u32 {
    3 << 28 | a << 10 | b
}

pub const fn scale(constant: u32, a: u32) -> u32 {
    4 << 28 | constant << 10 | a
}

pub const fn multiply(a: u32, b: u32) -> u32 {
    5 << 28 | a << 10 | b
}

pub const fn project(modulus: u32, a: u32) -> u32 {
    6 << 28 | modulus << 10 | a
}

pub const fn entry(image: u32) -> u32 {
    7 << 28 | image
}

pub const fn select(bit: u32) -> u32 {
    8 << 28 | bit
}

pub const fn branches(a: u32, b: u32) -> u32 {
    9 << 28 | a << 10 | b
}

/// An output that names nobody, and so is for everybody.
pub const fn output(wire: u32) -> u32 {
    named_output(0, wire)
}

/// An output for the seats whose bits are set: bit s for seat s.
pub const fn named_output(named: u32, wire: u32) -> u32 {
    10 << 28 | named << 10 | wire
}

/// The file that these words make.
pub fn file(words: &[u32]) -> Vec<u8> {
    words.iter().flat_map(|word| word.to_le_bytes()).collect()
}
