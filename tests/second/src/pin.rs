//! The level of the sync pin: 0 low, 1 high.

/// Any code and any control data are answered: what is not named low is high.
pub fn pin(code: u8, control: u32) -> u8 {
    let composite = control & (1 << 7) != 0;
    let low = if composite { code == 1 || code == 2 } else { code == 2 || code == 3 };
    u8::from(!low)
}
