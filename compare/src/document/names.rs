//! The names list.

/// Whether a name stands in a list: each ends in 0A, and what follows the last 0A counts for nothing.
pub fn is_listed(list: &[u8], name: &[u8]) -> bool {
    let mut names: Vec<&[u8]> = list.split(|&byte| byte == 0x0A).collect();
    names.pop();
    names.contains(&name)
}

#[cfg(test)]
mod tests {
    use super::is_listed;

    #[test]
    fn names_end_in_a_line_feed() {
        assert!(is_listed(b"pr\nlen\n", b"len"));
        assert!(!is_listed(b"pr\nlen", b"len"));
        assert!(!is_listed(b"pr\nlen\n", b""));
        assert!(is_listed(b"pr\n\nlen\n", b""));
        assert!(is_listed(b"\n", b""));
        assert!(!is_listed(b"", b""));
        assert!(!is_listed(b"a\nb\n", b"a\nb"));
    }
}
