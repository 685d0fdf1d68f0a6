//! Grey of a colour, a house rule: change request 4, which amends document 01.

/// 77 red, 150 green and 29 blue, in 256ths, times 17; the sum is rounded down.
/// At most 65,280 in 256ths, so 0 to 255. Bits above 11 play no part.
pub fn grey(colour: u16) -> u8 {
    let red = u32::from(colour) % 16;
    let green = u32::from(colour) / 16 % 16;
    let blue = u32::from(colour) / 256 % 16;
    (17 * (77 * red + 150 * green + 29 * blue) / 256) as u8
}
