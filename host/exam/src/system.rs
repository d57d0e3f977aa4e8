//! What the operating system says, in our words.

use std::io::{Error, ErrorKind};

/// Numbers of Linux that have no kind of their own.
const TOO_MANY_FILES: [i32; 2] = [23, 24];
const DEVICE: i32 = 5;
const LOOP: i32 = 40;

/// Why a file or folder can't be read, or output not be written.
pub fn words(error: &Error) -> String {
    let words = match (error.kind(), error.raw_os_error()) {
        (ErrorKind::NotFound, _) => "there is no such file",
        (ErrorKind::PermissionDenied, _) => "permission is denied",
        (ErrorKind::IsADirectory, _) => "it is a folder, not a file",
        (ErrorKind::NotADirectory, _) => "there is no such file: a part of its path is no folder",
        (ErrorKind::InvalidFilename, _) => "the name is too long",
        (ErrorKind::StorageFull | ErrorKind::QuotaExceeded, _) => "no space is left on the disk",
        (ErrorKind::FileTooLarge, _) => "the file would be too large",
        (ErrorKind::ReadOnlyFilesystem, _) => "the disk can only be read",
        (ErrorKind::OutOfMemory, _) => "memory is used up",
        (ErrorKind::WouldBlock, _) => "nothing comes at the moment",
        (ErrorKind::BrokenPipe, _) => "nobody reads it any more",
        (_, Some(number)) if TOO_MANY_FILES.contains(&number) => "too many files are open",
        (_, Some(DEVICE)) => "the disk or device reports an error",
        (_, Some(LOOP)) => "its links lead in a circle",
        _ => return other(error),
    };
    words.to_string()
}

/// An error for which there are no words here: the system's own, without the
/// number that Rust puts behind them.
fn other(error: &Error) -> String {
    let words = error.to_string();
    let words = words.split(" (os error").next().unwrap_or(&words);
    format!("the system says: {words}")
}

#[cfg(test)]
mod tests {
    use super::words;
    use std::io::Error;

    /// None of the numbers that Linux has comes with Rust's own words.
    #[test]
    fn every_error_has_words() {
        for number in 1..134 {
            let words = words(&Error::from_raw_os_error(number));
            assert!(!words.is_empty() && !words.contains("os error"), "{words}");
        }
        let of = |number| words(&Error::from_raw_os_error(number));
        assert_eq!(of(2), "there is no such file");
        assert_eq!(of(5), "the disk or device reports an error");
        assert_eq!(of(12), "memory is used up");
        assert_eq!(of(13), "permission is denied");
        assert_eq!(of(21), "it is a folder, not a file");
        assert_eq!(of(23), "too many files are open");
        assert_eq!(of(24), "too many files are open");
        assert_eq!(of(27), "the file would be too large");
        assert_eq!(of(28), "no space is left on the disk");
        assert_eq!(of(30), "the disk can only be read");
        assert_eq!(of(36), "the name is too long");
        assert_eq!(of(40), "its links lead in a circle");
        assert_eq!(of(71), "the system says: Protocol error");
        assert_eq!(
            words(&Error::other("no thread")),
            "the system says: no thread"
        );
    }
}
