//! The fields of an image by document 01's offsets, for building and damaging tables.

pub const SIZE: usize = duottarok::IMAGE_SIZE;
pub const SLOTS: usize = duottarok::SLOTS;
pub type Image = [u8; SIZE];

pub const SUPPORT: usize = 4616;
pub const HAS_INITIALIZED: usize = 4622;

/// Every field of a context: offset and length.
pub const FIELDS: [(usize, usize); 16] = [
    (0, 16),
    (16, 4),
    (20, 48),
    (68, 48),
    (116, 4),
    (120, 4),
    (124, 8),
    (132, 4),
    (136, 1),
    (137, 1),
    (138, 1),
    (139, 1),
    (140, 1),
    (141, 1),
    (142, 1),
    (143, 1),
];

pub const SIMULATION: u32 = 1 << 31;
pub const ROTATE: u32 = 1 << 27;
pub const X509: u32 = 1 << 26;
pub const INFO: u32 = 1 << 22;
pub const DICE: u32 = 1 << 21;
pub const ALL_SUPPORT: u32 = SIMULATION | ROTATE | X509 | INFO | DICE;

pub fn at(slot: usize) -> usize {
    8 + 144 * slot
}

pub fn put(image: &mut Image, at: usize, bytes: &[u8]) {
    image[at..at + bytes.len()].copy_from_slice(bytes);
}

/// What the tables are made of: the fields of a context that the calls look at.
#[derive(Clone, Copy)]
pub struct Slot {
    pub handle: [u8; 16],
    pub locality: u32,
    pub children: u64,
    pub parent: u8,
    pub simulation: bool,
    pub state: u8,
}

pub fn set(image: &mut Image, i: usize, s: Slot) {
    let at = at(i);
    put(image, at, &s.handle);
    put(image, at + 116, &s.locality.to_le_bytes());
    put(image, at + 124, &s.children.to_le_bytes());
    put(image, at + 132, &s.locality.to_le_bytes());
    image[at + 136] = s.parent;
    image[at + 137] = s.simulation as u8;
    image[at + 138] = s.state;
}

pub fn handle(image: &Image, i: usize) -> [u8; 16] {
    image[at(i)..at(i) + 16].try_into().expect("16 bytes")
}

pub fn locality(image: &Image, i: usize) -> u32 {
    u32::from_le_bytes(image[at(i) + 132..at(i) + 136].try_into().expect("4 bytes"))
}

pub fn state(image: &Image, i: usize) -> u8 {
    image[at(i) + 138]
}

/// A table with no context.
pub fn new(support: u32) -> Image {
    let mut image = [0; SIZE];
    put(&mut image, 0, &0x4450_4553u32.to_le_bytes());
    put(&mut image, 4, &1u32.to_le_bytes());
    for i in 0..SLOTS {
        image[at(i) + 136] = 0xff;
        image[at(i) + 142] = 1;
    }
    put(&mut image, SUPPORT, &support.to_le_bytes());
    image
}
