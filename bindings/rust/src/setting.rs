//! An accepted setting, in the paper's letters.

/// What a record sets, once it is accepted: positions in pixels from the start of horizontal sync, in rasters from the
/// start of vertical sync. CX, VCS and VCE come from the registers' data, with the cursor on or off.
#[derive(Clone, Copy, Debug, PartialEq, Eq)]
pub struct Setting {
    /// N, the length of a line.
    pub n: u32,
    /// HS, the width of horizontal sync.
    pub hs: u32,
    /// BS, where the border starts in a line.
    pub bs: u32,
    /// DS, where the display starts in a line.
    pub ds: u32,
    /// DE, where the display ends in a line.
    pub de: u32,
    /// BE, where the border ends in a line.
    pub be: u32,
    /// CX, where the cursor starts in a line.
    pub cx: u32,
    /// V, the rasters of a frame.
    pub v: u32,
    /// VS, the rasters of vertical sync.
    pub vs: u32,
    /// VBS, the border's first raster.
    pub vbs: u32,
    /// VDS, the display's first raster.
    pub vds: u32,
    /// VDE, the raster after the display's last.
    pub vde: u32,
    /// VBE, the raster after the border's last.
    pub vbe: u32,
    /// VCS, the cursor's first raster.
    pub vcs: u32,
    /// VCE, the raster after the cursor's last.
    pub vce: u32,
    /// The bits of a pixel: 1, 2, 4 or 8.
    pub depth: u32,
    /// Whether VDE > VDS.
    pub display_on: bool,
    /// Whether VBE > VBS.
    pub border_on: bool,
    /// Whether the cursor's two vertical registers were written and VCE > VCS.
    pub cursor_on: bool,
    /// The video words that a frame needs.
    pub video_words: u32,
    /// The cursor words that a frame needs.
    pub cursor_words: u32,
}

impl Setting {
    /// How many numbers the C call writes.
    pub(crate) const NUMBERS: usize = 21;

    /// The numbers in the order in which the C call writes them.
    #[rustfmt::skip] // as the header has them
    pub(crate) fn of(numbers: [u32; Setting::NUMBERS]) -> Setting {
        let [
            n, hs, bs, ds, de, be, cx,
            v, vs, vbs, vds, vde, vbe, vcs, vce,
            depth,
            display, border, cursor,
            video_words, cursor_words,
        ] = numbers;
        Setting {
            n, hs, bs, ds, de, be, cx,
            v, vs, vbs, vds, vde, vbe, vcs, vce,
            depth,
            display_on: display != 0, border_on: border != 0, cursor_on: cursor != 0,
            video_words, cursor_words,
        }
    }
}
