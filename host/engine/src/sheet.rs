//! A candidate's sheet as bytes.

/// A candidate's sheet as it crosses to the engine: 4 bytes for each start, two's
/// complement, most significant first, in line order. Any bytes are a sheet;
/// where they aren't one start for each line, the calls refuse it
/// ([`Ground::SheetLength`](crate::Ground::SheetLength)).
///
/// ```
/// use engine::Sheet;
///
/// let sheet = Sheet::of_starts(&[0, -17]);
/// assert_eq!(sheet.bytes(), [0, 0, 0, 0, 0xFF, 0xFF, 0xFF, 0xEF]);
/// assert_eq!(sheet, Sheet::of_bytes(vec![0, 0, 0, 0, 0xFF, 0xFF, 0xFF, 0xEF]));
/// ```
#[derive(Clone, Debug, PartialEq, Eq)]
pub struct Sheet {
    bytes: Vec<u8>,
}

impl Sheet {
    /// A sheet of these starts, in minutes; negative and large ones are fine.
    ///
    /// ```
    /// let sheet = engine::Sheet::of_starts(&[0, 3]);
    /// assert_eq!(sheet.bytes().len(), 8);
    /// ```
    pub fn of_starts(starts: &[i32]) -> Sheet {
        let bytes = starts.iter().flat_map(|start| start.to_be_bytes());
        Sheet {
            bytes: bytes.collect(),
        }
    }

    /// Bytes of any number and content, such as those of a file.
    ///
    /// ```
    /// let sheet = engine::Sheet::of_bytes(vec![0, 0, 0, 3]);
    /// assert_eq!(sheet, engine::Sheet::of_starts(&[3]));
    /// ```
    pub fn of_bytes(bytes: Vec<u8>) -> Sheet {
        Sheet { bytes }
    }

    /// The bytes as they cross.
    ///
    /// ```
    /// assert_eq!(engine::Sheet::of_starts(&[-1]).bytes(), [255; 4]);
    /// ```
    pub fn bytes(&self) -> &[u8] {
        &self.bytes
    }
}
