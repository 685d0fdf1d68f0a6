//! A picture as a binary PPM file: red, green and blue of each pixel, each 4-bit gun times 17.

/// The file of N by V colours, raster after raster.
pub fn ppm(n: u32, v: u32, colours: &[u16]) -> Vec<u8> {
    let mut file = format!("P6\n{n} {v}\n255\n").into_bytes();
    file.extend(colours.iter().flat_map(|colour| [0, 4, 8].map(|gun| 17 * (colour >> gun & 15) as u8)));
    file
}
