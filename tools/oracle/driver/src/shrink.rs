//! The smallest input with a difference that simple trials find: pieces left out, then bytes made plain.

/// `differs` holds of `bytes` on entry, and of what is handed back.
pub fn shrink(bytes: &[u8], differs: &mut dyn FnMut(&[u8]) -> bool) -> Vec<u8> {
    let mut best = bytes.to_vec();
    let mut tries = 20_000;
    loop {
        let before = best.len();
        let mut size = best.len().max(1);
        while size > 0 && tries > 0 {
            let mut at = 0;
            while at < best.len() && tries > 0 {
                let mut less = best.clone();
                less.drain(at..(at + size).min(best.len()));
                tries -= 1;
                if differs(&less) {
                    best = less;
                } else {
                    at += size;
                }
            }
            size /= 2;
        }
        if best.len() == before || tries == 0 {
            break;
        }
    }
    for at in 0..best.len() {
        for plain in [0x41, 0x00] {
            if best[at] != plain && tries > 0 {
                let mut other = best.clone();
                other[at] = plain;
                tries -= 1;
                if differs(&other) {
                    best = other;
                    break;
                }
            }
        }
    }
    best
}
