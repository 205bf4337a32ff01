//! Many texts as one stream of bytes: before each its length, in four bytes with
//! the lowest first.

pub fn put(stream: &mut Vec<u8>, text: &[u8]) {
    stream.extend((text.len() as u32).to_le_bytes());
    stream.extend(text);
}

/// The texts of a stream; a part at the end that isn't whole is left out.
pub fn texts(mut stream: &[u8]) -> Vec<&[u8]> {
    let mut texts = Vec::new();
    while let Some((length, rest)) = stream.split_first_chunk() {
        let Some((text, rest)) = rest.split_at_checked(u32::from_le_bytes(*length) as usize) else {
            break;
        };
        texts.push(text);
        stream = rest;
    }
    texts
}
