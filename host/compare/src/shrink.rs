//! Makes a differing frame smaller: cuts its end and sets bytes to zero while it still differs.

/// The smallest frame found for which `differs` still holds.
pub fn shrink(bytes: &[u8], differs: impl Fn(&[u8]) -> bool) -> Vec<u8> {
    let mut best = bytes.to_vec();
    let mut step = best.len() / 2;
    while step > 0 {
        while step < best.len() && differs(&best[..best.len() - step]) {
            best.truncate(best.len() - step);
        }
        step /= 2;
    }
    for at in 0..best.len() {
        let mut plainer = best.clone();
        plainer[at] = 0;
        if best[at] != 0 && differs(&plainer) {
            best = plainer;
        }
    }
    best
}
