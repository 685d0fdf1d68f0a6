// A frame by stretches in Rust with slices and no unsafe code in the painting; as stretches.c.
#[repr(C)]
pub struct Picture {
    n: u32, hs: u32, bs: u32, ds: u32, de: u32, be: u32, cx: u32,
    v: u32, vs: u32, vbs: u32, vds: u32, vde: u32, vbe: u32, vcs: u32, vce: u32,
    depth: u32, display: u32, border: u32, cursor: u32, video_words: u32, cursor_words: u32,
    palette: [u16; 16], border_colour: u16, pens: [u16; 3],
    video: *const u32, shape: *const u32,
}

fn colour(p: &Picture, pixel: u32) -> u16 {
    if p.depth < 8 {
        return p.palette[pixel as usize];
    }
    let bits = (pixel >> 7 & 1) << 11 | (pixel >> 5 & 3) << 6 | (pixel >> 4 & 1) << 3;
    p.palette[pixel as usize % 16] & 0x1737 | bits as u16
}

fn words<const D: u32, const COUNT: usize>(out: &mut [u16], video: &[u32], table: &[u16; 256]) {
    for (cells, word) in out.chunks_exact_mut(COUNT).zip(video) {
        let mut rest = *word;
        for cell in cells {
            *cell = table[(rest & ((1 << D) - 1)) as usize];
            rest >>= D;
        }
    }
}

fn bit_words(out: &mut [u16], video: &[u32], zero: u16, one: u16) {
    for (cells, word) in out.chunks_exact_mut(32).zip(video) {
        for (j, cell) in cells.iter_mut().enumerate() {
            *cell = if word >> j & 1 == 1 { one } else { zero };
        }
    }
}

fn shown(out: &mut [u16], video: &[u32], depth: u32, table: &[u16; 256]) {
    match depth {
        8 => words::<8, 4>(out, video, table),
        4 => words::<4, 8>(out, video, table),
        2 => words::<2, 16>(out, video, table),
        _ => bit_words(out, video, table[0], table[1]),
    }
}

fn cover(p: &Picture, shape: &[u32], y: u32, out: &mut [u16]) {
    if p.cursor == 0 || !(p.vcs..p.vce).contains(&y) || !(p.vbs..p.vbe).contains(&y) {
        return;
    }
    let first = 2 * (y - p.vcs) as usize;
    for i in 0..32 {
        let x = p.cx + i as u32;
        let pair = shape[first + i / 16] >> (2 * (i % 16)) & 3;
        if pair != 0 && (p.bs..p.be).contains(&x) {
            out[x as usize] = 6 * 8192 + p.pens[pair as usize - 1];
        }
    }
}

fn frame(p: &Picture, video: &[u32], shape: &[u32], out: &mut [u16]) {
    let mut table = [0; 256];
    for i in 0..1 << p.depth {
        table[i as usize] = 5 * 8192 + colour(p, i);
    }
    let [hs, bs, ds, de, be] = [p.hs, p.bs, p.ds, p.de, p.be].map(|x| x as usize);
    let count = (de - ds) * p.depth as usize / 32;
    let border = 4 * 8192 + p.border_colour;
    for (y, row) in (0..p.v).zip(out.chunks_exact_mut(p.n as usize)) {
        let empty = if y < p.vs { 2 * 8192 } else { 0 };
        row[..hs].fill(empty + 8192);
        if (p.vbs..p.vbe).contains(&y) {
            row[hs..bs].fill(empty);
            if (p.vds..p.vde).contains(&y) {
                let first = (y - p.vds) as usize * count;
                row[bs..ds].fill(border);
                shown(&mut row[ds..de], &video[first..first + count], p.depth, &table);
                row[de..be].fill(border);
            } else {
                row[bs..be].fill(border);
            }
            row[be..].fill(empty);
        } else {
            row[hs..].fill(empty);
        }
        cover(p, shape, y, row);
    }
}

/// # Safety
/// `p` holds an accepted picture whose lists have the lengths it names; `out` has room for n * v cells.
#[no_mangle]
pub unsafe extern "C" fn stretches_rust(p: &Picture, out: *mut u16) {
    let video = std::slice::from_raw_parts(p.video, p.video_words as usize);
    let shape = std::slice::from_raw_parts(p.shape, p.cursor_words as usize);
    frame(p, video, shape, std::slice::from_raw_parts_mut(out, (p.n * p.v) as usize));
}
