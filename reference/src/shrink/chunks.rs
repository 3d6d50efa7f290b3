//! Fewer of anything.

/// Drops runs of items, long ones first, as long as the rest fails.
pub fn drop_chunks<T: Clone>(items: Vec<T>, fails: &mut dyn FnMut(&[T]) -> bool) -> Vec<T> {
    let mut best = items;
    let mut length = best.len() / 2;
    while length > 0 {
        let mut at = 0;
        while at < best.len() {
            let end = (at + length).min(best.len());
            let mut offer = best.clone();
            offer.drain(at..end);
            if fails(&offer) {
                best = offer;
            } else {
                at = end;
            }
        }
        length /= 2;
    }
    best
}
