//! The register map, by address.

pub const PALETTE: u32 = 0x00; // entries 0-15 at 00H-3CH
pub const BORDER: u32 = 0x40;
pub const CURSOR_PALETTE_1: u32 = 0x44; // entries 1-3 at 44H-4CH
pub const STEREO_7: u32 = 0x60;
pub const STEREO_0: u32 = 0x64; // 0-6 at 64H-7CH
pub const HCR: u32 = 0x80;
pub const HSWR: u32 = 0x84;
pub const HBSR: u32 = 0x88;
pub const HDSR: u32 = 0x8C;
pub const HDER: u32 = 0x90;
pub const HBER: u32 = 0x94;
pub const HCSR: u32 = 0x98;
pub const HIR: u32 = 0x9C;
pub const VCR: u32 = 0xA0;
pub const VSWR: u32 = 0xA4;
pub const VBSR: u32 = 0xA8;
pub const VDSR: u32 = 0xAC;
pub const VDER: u32 = 0xB0;
pub const VBER: u32 = 0xB4;
pub const VCSR: u32 = 0xB8;
pub const VCER: u32 = 0xBC;
pub const SOUND_FREQUENCY: u32 = 0xC0;
pub const CONTROL: u32 = 0xE0;

/// The address that a word is for, in its six highest bits.
pub fn address_of(word: u32) -> u32 {
    (word >> 26) * 4
}

/// What is left when every named address is taken away.
pub fn is_reserved(address: u32) -> bool {
    !matches!(address, 0x00..=0x4C | 0x60..=0xC0 | 0xE0)
}

pub fn palette_entry(i: u32) -> u32 {
    PALETTE + 4 * i
}

/// Cursor palette entry 1, 2 or 3.
pub fn cursor_entry(i: u32) -> u32 {
    CURSOR_PALETTE_1 + 4 * (i - 1)
}

/// Stereo 7 comes first, then 0 to 6.
pub fn stereo(channel: u32) -> u32 {
    if channel == 7 {
        STEREO_7
    } else {
        STEREO_0 + 4 * channel
    }
}

#[cfg(test)]
mod tests {
    use super::*;

    #[test]
    fn eighteen_are_reserved() {
        assert_eq!((0..64).filter(|s| is_reserved(4 * s)).count(), 18);
    }

    #[test]
    fn stereo_registers_in_address_order() {
        let order: Vec<u32> =
            (0x60..=0x7C).step_by(4).map(|a| (0..8).find(|&c| stereo(c) == a).unwrap()).collect();
        assert_eq!(order, [7, 0, 1, 2, 3, 4, 5, 6]);
    }
}
