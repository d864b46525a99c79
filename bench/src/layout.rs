//! Where blocks and sectors lie in an image.

pub const BLOCK_BYTES: usize = 16;
pub type BlockBytes = [u8; BLOCK_BYTES];

/// The access group of every trailer.
pub const TRAILER_GROUP: u8 = 3;

pub fn is_image(image: &[u8]) -> bool {
    matches!(image.len(), 1024 | 4096)
}

pub fn sectors(image: &[u8]) -> u8 {
    if image.len() == 1024 {
        16
    } else {
        40
    }
}

pub fn has_block(image: &[u8], block: u8) -> bool {
    usize::from(block) < image.len() / BLOCK_BYTES
}

pub fn sector_of(block: u8) -> u8 {
    if block < 128 {
        block / 4
    } else {
        32 + (block - 128) / 16
    }
}

pub fn trailer_of(sector: u8) -> u8 {
    if sector < 32 {
        sector * 4 + 3
    } else {
        128 + (sector - 32) * 16 + 15
    }
}

/// The first block of a sector and the number of its blocks.
pub fn blocks_of(sector: u8) -> (u8, u8) {
    if sector < 32 {
        (sector * 4, 4)
    } else {
        (128 + (sector - 32) * 16, 16)
    }
}

pub fn group_of(block: u8) -> u8 {
    if block < 128 {
        block % 4
    } else {
        block % 16 / 5
    }
}

pub fn is_trailer(block: u8) -> bool {
    group_of(block) == TRAILER_GROUP
}

/// The bytes of a block that the image has.
pub fn bytes_of(image: &[u8], block: u8) -> &BlockBytes {
    let start = usize::from(block) * BLOCK_BYTES;
    image[start..start + BLOCK_BYTES].try_into().unwrap()
}

pub fn bytes_of_mut(image: &mut [u8], block: u8) -> &mut BlockBytes {
    let start = usize::from(block) * BLOCK_BYTES;
    (&mut image[start..start + BLOCK_BYTES]).try_into().unwrap()
}
