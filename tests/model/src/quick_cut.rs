//! Cutting a page more quickly. Quoted words are those of that request.

/// What the search in a row that is to be cut gives.
#[derive(Clone, Copy, Debug, PartialEq, Eq)]
pub struct Found {
    /// The place to cut at: how many entries the left part gets.
    pub place: usize,
    /// "How many entries it tried."
    pub tried: usize,
}

/// Searches a row of two depths or more, which is the whole row that is cut: of a
/// part that is cut again, the part. "The page's last" is the last of these.
///
/// "In every row that insertion cuts, the place found is 01's." In a row whose
/// last depth is not below all others it need not be.
pub fn quick_search(depths: &[usize]) -> Found {
    let all_but_the_last = depths.len() - 1;
    let last = depths[all_but_the_last];
    let (mut place, mut tried) = (1, 0);
    while tried < all_but_the_last {
        let depth = depths[tried];
        tried += 1;
        // "It stops at the first depth one above the page's last": that entry is
        // the place, and it is counted, "through that one".
        if depth == last + 1 {
            return Found {
                place: tried,
                tried,
            };
        }
        if depth < depths[place - 1] {
            place = tried;
        }
    }
    // "Where none is met, all but the last": the first of the shallowest is the
    // place.
    Found { place, tried }
}
