//! The tests on names and subjects.

/// A name of a stream or consumer: not empty, without white space, dots and wildcards.
pub fn is_valid_name(name: &str) -> bool {
    !name.is_empty() && !name.bytes().any(|b| b.is_ascii_whitespace() || matches!(b, b'.' | b'*' | b'>'))
}

/// A subject: not empty, without white space, and with a dot neither at its beginning nor at its end.
pub fn is_valid_subject(subject: &str) -> bool {
    !subject.is_empty()
        && !subject.bytes().any(|b| b.is_ascii_whitespace())
        && !subject.starts_with('.')
        && !subject.ends_with('.')
}
