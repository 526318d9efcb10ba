// Roots end to end, each behind its length.

// A longer tape is refused.
const LONGEST: usize = 65_535;

// The first root that is too long to stand on a list.
pub fn too_long<R: AsRef<[u8]>>(roots: &[R]) -> Option<usize> {
    roots.iter().position(|root| root.as_ref().len() > LONGEST)
}

pub fn put_list<R: AsRef<[u8]>>(roots: &[R], list: &mut Vec<u8>) {
    list.clear();
    for root in roots {
        list.extend_from_slice(&(root.as_ref().len() as u16).to_le_bytes());
        list.extend_from_slice(root.as_ref());
    }
}

// The first root of a list, and the list behind it.
fn split(list: &[u8]) -> (&[u8], &[u8]) {
    let (length, rest) = list.split_at(2);
    rest.split_at(u16::from_le_bytes([length[0], length[1]]) as usize)
}

// The list behind its first roots.
pub fn behind(list: &[u8], roots: usize) -> &[u8] {
    (0..roots).fold(list, |list, _| split(list).1)
}

pub fn roots_in(mut list: &[u8]) -> impl Iterator<Item = &[u8]> {
    std::iter::from_fn(move || {
        let (root, rest) = (!list.is_empty()).then(|| split(list))?;
        list = rest;
        Some(root)
    })
}
