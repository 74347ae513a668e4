//! The Exif block of a JPEG image by request three's rules, as one would write it in Rust by hand: what ours is measured against.

/// The block, or the number of the refusal.
pub fn jpeg_exif(image: &[u8]) -> Result<Vec<u8>, u8> {
    let mut rest = image.strip_prefix(b"\xff\xd8").ok_or(31)?;
    loop {
        let (marker, behind) = marker(rest)?;
        rest = match marker {
            0xd9 | 0xda => return Err(1),
            0x01 | 0xd0..=0xd7 => behind,
            0xe1 => {
                let (body, behind) = body(behind)?;
                if let Some(block) = body.strip_prefix(b"Exif\0\0") {
                    return Ok(block.to_vec());
                }
                behind
            }
            _ => body(behind)?.1,
        };
    }
}

/// The next marker, and what is behind it.
fn marker(bytes: &[u8]) -> Result<(u8, &[u8]), u8> {
    if *bytes.first().ok_or(2)? != 0xff {
        return Err(32);
    }
    let at = bytes.iter().position(|&byte| byte != 0xff).ok_or(2)?;
    Ok((bytes[at], &bytes[at + 1..]))
}

/// The body of a segment, and what is behind it. The length counts its own two bytes.
fn body(bytes: &[u8]) -> Result<(&[u8], &[u8]), u8> {
    let (length, _) = bytes.split_first_chunk().ok_or(2)?;
    let length = usize::from(u16::from_be_bytes(*length));
    if length < 2 {
        return Err(33);
    }
    let (segment, behind) = bytes.split_at_checked(length).ok_or(2)?;
    Ok((&segment[2..], behind))
}
