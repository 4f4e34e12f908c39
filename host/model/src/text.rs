//! Bytes as text: plain hex, and the compact form of reading.txt.

/// Lower-case hex, `-` for no bytes.
pub fn hex(bytes: &[u8]) -> String {
    if bytes.is_empty() {
        return "-".to_string();
    }
    bytes.iter().map(|byte| format!("{byte:02x}")).collect()
}

pub fn unhex(text: &str) -> Option<Vec<u8>> {
    if text == "-" {
        return Some(Vec::new());
    }
    if !text.is_ascii() || text.len() % 2 != 0 {
        return None;
    }
    (0..text.len()).step_by(2).map(|at| u8::from_str_radix(&text[at..at + 2], 16).ok()).collect()
}

/// The compact form: segments joined by `.`, each hex bytes, with `*N` where they are repeated N times.
pub fn compact(segments: &[(Vec<u8>, usize)]) -> String {
    let one = |(bytes, times): &(Vec<u8>, usize)| match times {
        1 => hex(bytes),
        _ => format!("{}*{times}", hex(bytes)),
    };
    let parts: Vec<String> =
        segments.iter().filter(|(bytes, times)| !bytes.is_empty() && *times > 0).map(one).collect();
    if parts.is_empty() {
        "-".to_string()
    } else {
        parts.join(".")
    }
}

pub fn uncompact(text: &str) -> Option<Vec<u8>> {
    let mut bytes = Vec::new();
    for segment in text.split('.') {
        let (digits, times) = segment.split_once('*').unwrap_or((segment, "1"));
        bytes.extend(unhex(digits)?.repeat(times.parse().ok()?));
    }
    Some(bytes)
}
