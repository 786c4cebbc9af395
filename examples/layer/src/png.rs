//! A PNG of 8-bit greys in deflate's stored blocks: no compressor, so the same greys are the same bytes everywhere.

fn crc(bytes: &[u8]) -> u32 {
    let mut crc = !0u32;
    for &byte in bytes {
        crc ^= u32::from(byte);
        for _ in 0..8 {
            crc = if crc & 1 == 1 {
                crc >> 1 ^ 0xEDB8_8320
            } else {
                crc >> 1
            };
        }
    }
    !crc
}

fn adler(bytes: &[u8]) -> u32 {
    let (mut a, mut b) = (1u32, 0u32);
    for &byte in bytes {
        a = (a + u32::from(byte)) % 65521;
        b = (b + a) % 65521;
    }
    b << 16 | a
}

fn chunk(out: &mut Vec<u8>, name: &[u8; 4], content: &[u8]) {
    out.extend((content.len() as u32).to_be_bytes());
    let from = out.len();
    out.extend(name);
    out.extend(content);
    let check = crc(&out[from..]);
    out.extend(check.to_be_bytes());
}

/// The picture of whole rows of greys, each `width` long.
pub fn picture(width: usize, greys: &[u8]) -> Vec<u8> {
    let height = greys.len() / width;
    let mut rows = Vec::with_capacity(greys.len() + height);
    for row in greys.chunks(width) {
        rows.push(0); // no filter
        rows.extend(row);
    }
    // A stored block holds at most 65,535 bytes.
    let mut data = vec![0x78, 0x01];
    let mut left = &rows[..];
    while !left.is_empty() {
        let (block, rest) = left.split_at(left.len().min(65535));
        data.push(u8::from(rest.is_empty()));
        data.extend((block.len() as u16).to_le_bytes());
        data.extend((!(block.len() as u16)).to_le_bytes());
        data.extend(block);
        left = rest;
    }
    data.extend(adler(&rows).to_be_bytes());

    let mut head = [(width as u32).to_be_bytes(), (height as u32).to_be_bytes()].concat();
    head.extend([8, 0, 0, 0, 0]); // 8 bits, grey
    let mut out = b"\x89PNG\r\n\x1A\n".to_vec();
    chunk(&mut out, b"IHDR", &head);
    chunk(&mut out, b"IDAT", &data);
    chunk(&mut out, b"IEND", &[]);
    out
}
