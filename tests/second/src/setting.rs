//! A setting: the geometry that a record gives, and the checks in their order: 3 to 6, 19, 7 to 9.

use crate::address::*;
use crate::needed;
use crate::record::Record;
use crate::refusal::*;
use std::ops::Range;

/// The paper's letters. Read from the data alone, written or not; the checks come after.
#[derive(Clone, Debug, PartialEq, Eq)]
pub struct Setting {
    pub n: u32,
    pub hs: u32,
    pub bs: u32,
    pub ds: u32,
    pub de: u32,
    pub be: u32,
    pub cx: u32,
    pub v: u32,
    pub vs: u32,
    pub vbs: u32,
    pub vds: u32,
    pub vde: u32,
    pub vbe: u32,
    pub vcs: u32,
    pub vce: u32,
    pub depth: u32,
    pub display_on: bool,
    pub border_on: bool,
    pub cursor_on: bool,
}

/// The four pixel rates in MHz.
pub fn pixel_rate(record: &Record) -> u32 {
    [8, 12, 16, 24][record.bits(CONTROL, 1, 0) as usize]
}

/// Bits for each pixel.
pub fn depth(record: &Record) -> u32 {
    [1, 2, 4, 8][record.bits(CONTROL, 3, 2) as usize]
}

/// The display's offset k at each depth.
fn display_offset(depth: u32) -> u32 {
    match depth {
        1 => 19,
        2 => 11,
        4 => 7,
        _ => 5,
    }
}

/// The ten bits of a horizontal or vertical register.
fn value(record: &Record, address: u32) -> u32 {
    record.bits(address, 23, 14)
}

/// What the data says, before any rule is asked.
pub fn read(record: &Record) -> Setting {
    let depth = depth(record);
    let k = display_offset(depth);
    let rasters = |address| value(record, address) + 1;
    let (vcs, vce) = (rasters(VCSR), rasters(VCER));
    Setting {
        n: 2 * value(record, HCR) + 2,
        hs: 2 * value(record, HSWR) + 2,
        bs: 2 * value(record, HBSR) + 1,
        ds: 2 * value(record, HDSR) + k,
        de: 2 * value(record, HDER) + k,
        be: 2 * value(record, HBER) + 1,
        cx: record.bits(HCSR, 23, 13) + 6,
        v: rasters(VCR),
        vs: rasters(VSWR),
        vbs: rasters(VBSR),
        vds: rasters(VDSR),
        vde: rasters(VDER),
        vbe: rasters(VBER),
        vcs,
        vce,
        depth,
        display_on: rasters(VDER) > rasters(VDSR),
        border_on: rasters(VBER) > rasters(VBSR),
        cursor_on: record.is_written(VCSR) && record.is_written(VCER) && vce > vcs,
    }
}

/// The setting a record gives, or the first of the refusals 3 to 6, 19, 7 to 9 in this order.
pub(crate) fn check(record: &Record) -> Result<Setting, Refusal> {
    let s = read(record);
    needed::judge(record, &s)?;
    refuse_if(record.bits(CONTROL, 15, 14) != 0, TEST_MODE)?;
    refuse_if(record.bits(CONTROL, 6, 6) != 0, INTERLACE)?;
    refuse_if(!s.horizontal_rule(), HORIZONTAL)?;
    refuse_if(s.cursor_on && !s.sync_lasts_ten_clocks(pixel_rate(record)), SYNC_WIDTH)?;
    refuse_if(!s.vertical_rule(), VERTICAL)?;
    refuse_if((s.de - s.ds) * s.depth % 32 != 0, WIDTH)?;
    let sub_position = record.bits(HCSR, 12, 11);
    refuse_if(s.cursor_on && (sub_position != 0 || s.vce > s.v), CURSOR)?;
    Ok(s)
}

impl Setting {
    fn horizontal_rule(&self) -> bool {
        self.hs <= self.bs
            && self.bs <= self.ds
            && self.ds < self.de
            && self.de <= self.be
            && self.be <= self.n
    }

    /// Ten clocks of the 12 MHz memory clock, at this pixel rate in MHz: HS / f is at least 10 / 12.
    fn sync_lasts_ten_clocks(&self, rate: u32) -> bool {
        6 * self.hs >= 5 * rate
    }

    fn vertical_rule(&self) -> bool {
        let both_in_order = self.vs <= self.vbs
            && self.vbs <= self.vds
            && self.vds < self.vde
            && self.vde <= self.vbe
            && self.vbe <= self.v;
        let border_in_order = self.vs <= self.vbs && self.vbs < self.vbe && self.vbe <= self.v;
        self.vs <= self.v && (both_in_order || (!self.display_on && (!self.border_on || border_in_order)))
    }

    /// The displayed rasters, VDS up to VDE: none where the display is off.
    pub fn displayed(&self) -> Range<u32> {
        self.vds..self.vde
    }

    /// Video words that a frame of this (checked) setting needs.
    pub fn video_words(&self) -> u32 {
        if !self.display_on {
            return 0;
        }
        (self.de - self.ds) * (self.vde - self.vds) * self.depth / 32
    }

    /// Cursor words that a frame of this setting needs; the border has no say.
    pub fn cursor_words(&self) -> u32 {
        if !self.cursor_on {
            return 0;
        }
        2 * (self.vce - self.vcs)
    }

    /// N to VCE in the paper's order, depth, what is on, and the words needed.
    #[rustfmt::skip]
    pub fn numbers(&self) -> [u32; 21] {
        [
            self.n, self.hs, self.bs, self.ds, self.de, self.be, self.cx,
            self.v, self.vs, self.vbs, self.vds, self.vde, self.vbe, self.vcs, self.vce,
            self.depth, self.display_on.into(), self.border_on.into(), self.cursor_on.into(),
            self.video_words(), self.cursor_words(),
        ]
    }

    /// 11: both counts must be right.
    pub fn judge_words(&self, video: &[u32], cursor: &[u32]) -> Result<(), Refusal> {
        self.judge_video(video)?;
        refuse_if(cursor.len() != self.cursor_words() as usize, WORD_COUNT)
    }

    /// 11 for the video words alone.
    pub fn judge_video(&self, video: &[u32]) -> Result<(), Refusal> {
        refuse_if(video.len() != self.video_words() as usize, WORD_COUNT)
    }
}
