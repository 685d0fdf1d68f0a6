//! One cell of the frame, at a position x and a raster y: code times 8192, supremacy times 4096, and colour.

use crate::colour::{self, Shown};
use crate::record::Record;
use crate::setting::Setting;

/// All that a cell depends on: a checked setting and its data.
pub struct Picture<'a> {
    pub record: &'a Record,
    pub setting: &'a Setting,
    pub video: &'a [u32],
    pub cursor: &'a [u32],
}

fn within(from: u32, at: u32, to: u32) -> bool {
    from <= at && at < to
}

impl Picture<'_> {
    /// The N cells of raster y.
    pub fn raster(&self, y: u32) -> Vec<u16> {
        (0..self.setting.n).map(|x| self.cell(x, y)).collect()
    }

    pub fn cell(&self, x: u32, y: u32) -> u16 {
        let under = self.code_under_cursor(x, y);
        let pair = self.cursor_pair(x, y);
        if (under == 4 || under == 5) && pair != 0 {
            return made(6, colour::cursor(self.record, pair));
        }
        match under {
            4 => made(4, colour::border(self.record)),
            5 => made(5, colour::display(self.record, self.setting.depth, self.pixel(x, y))),
            code => made(code, Shown { colour: 0, supremacy: false }),
        }
    }

    /// The code as it would be without a cursor.
    fn code_under_cursor(&self, x: u32, y: u32) -> u16 {
        let s = self.setting;
        match (x < s.hs, y < s.vs) {
            (true, true) => 3,
            (false, true) => 2,
            (true, false) => 1,
            (false, false) if self.in_display(x, y) => 5,
            (false, false) if self.in_border(x, y) => 4,
            (false, false) => 0,
        }
    }

    fn in_display(&self, x: u32, y: u32) -> bool {
        let s = self.setting;
        s.display_on && within(s.ds, x, s.de) && within(s.vds, y, s.vde)
    }

    fn in_border(&self, x: u32, y: u32) -> bool {
        let s = self.setting;
        s.border_on && within(s.bs, x, s.be) && within(s.vbs, y, s.vbe)
    }

    /// The cursor's bit pair at this position, 0 where there is no cursor.
    fn cursor_pair(&self, x: u32, y: u32) -> u32 {
        let s = self.setting;
        let there = s.cursor_on && within(s.vcs, y, s.vce) && within(s.cx, x, s.cx + 32);
        if !there {
            return 0;
        }
        let i = x - s.cx;
        let word = self.cursor[(2 * (y - s.vcs) + i / 16) as usize];
        word >> (2 * (i % 16)) & 3
    }

    /// The logical pixel of a display position: d bits, lowest first, nothing skipped.
    fn pixel(&self, x: u32, y: u32) -> u32 {
        let s = self.setting;
        let position = (y - s.vds) * (s.de - s.ds) + (x - s.ds);
        let first_bit = position * s.depth;
        let word = self.video[(first_bit / 32) as usize];
        word >> (first_bit % 32) & ((1 << s.depth) - 1)
    }
}

fn made(code: u16, shown: Shown) -> u16 {
    code * 8192 + u16::from(shown.supremacy) * 4096 + shown.colour
}

pub fn code(cell: u16) -> u16 {
    cell / 8192
}

/// Any cell's colour and supremacy, whatever its code.
pub fn shown(cell: u16) -> Shown {
    Shown { colour: cell % 4096, supremacy: cell / 4096 % 2 == 1 }
}
