//! A store and the calls on it.

use crate::answer::{decode, verdict_of_answer};
use crate::{ffi, Counts, Reason, Refusal, Verdict, FILE_MAX};

/// Row numbers as replace and preview take them. What a byte cannot hold becomes
/// 255, which is no row either: the set is refused with 33 as it would be.
///
/// ```
/// assert_eq!(dispenser::row_bytes(&[3, 159, 1000]), [3, 159, 255]);
/// ```
pub fn row_bytes(rows: &[usize]) -> Vec<u8> {
    let byte = |&row: &usize| u8::try_from(row).unwrap_or(u8::MAX);
    rows.iter().map(byte).collect()
}

/// A store that owns its bytes.
///
/// Its bytes are all that it is: a copy answers as the store does, and they may be
/// kept and taken up again.
///
/// ```
/// use dispenser::Store;
///
/// let mut store = Store::new();
/// store.load(&std::fs::read("../../examples/a.txt")?)?;
/// let kept = store.bytes().to_vec();
/// assert_eq!(Store::from_bytes(kept).judge(), store.judge());
/// # Ok::<(), Box<dyn std::error::Error>>(())
/// ```
#[derive(Clone, Debug, PartialEq, Eq)]
pub struct Store {
    bytes: Vec<u8>,
}

impl Default for Store {
    fn default() -> Store {
        Store::new()
    }
}

impl Store {
    /// The store's fixed size.
    pub fn size() -> usize {
        ffi::store_size() as usize
    }

    /// An empty store.
    pub fn new() -> Store {
        Store {
            bytes: vec![0; Store::size()],
        }
    }

    /// A store of any bytes, as long or short as they are. A call tells by a
    /// refusal, 20 to 22, if no load left them.
    pub fn from_bytes(bytes: Vec<u8>) -> Store {
        Store { bytes }
    }

    /// The store's bytes.
    pub fn bytes(&self) -> &[u8] {
        &self.bytes
    }

    /// Loads a file and answers the counts of its lines. Where it is refused with 1
    /// to 9 the store is empty.
    pub fn load(&mut self, file: &[u8]) -> Result<Counts, Refusal> {
        decode(ffi::load(file, &mut self.bytes)).map(Counts::of_answer)
    }

    /// Puts the smallest tables that keep the flow rules in place of the
    /// store's own; rows and claims stay.
    ///
    /// ```
    /// use dispenser::Store;
    ///
    /// let rows = b"[dispenser 1]\n[row 0 [bind 0 [chan] 1]]\n[row 1 [result 0]]\n";
    /// let mut store = Store::new();
    /// store.load(rows)?;
    /// assert_eq!(store.infer()?.flows, 1);
    /// assert!(store.text()?.ends_with(b"[flow 0 [0]]\n"));
    /// # Ok::<(), dispenser::Refusal>(())
    /// ```
    pub fn infer(&mut self) -> Result<Counts, Refusal> {
        decode(ffi::infer(&mut self.bytes)).map(Counts::of_answer)
    }

    /// The count of claims, if the tables keep the flow rules and all claims
    /// hold; else refusal 10 or 11, with the line of the row or claim.
    pub fn judge(&self) -> Result<usize, Refusal> {
        decode(ffi::judge(&self.bytes))
    }

    /// Puts a set, which may be empty, in place of a bound name's own: `u` or
    /// not, and rising rows. A call that is refused alters nothing.
    pub fn replace(&mut self, name: usize, unit: bool, rows: &[u8]) -> Result<Counts, Refusal> {
        let answer = ffi::replace(&mut self.bytes, name, u8::from(unit), rows);
        decode(answer).map(Counts::of_answer)
    }

    /// What judge would answer after such a replace, or the refusal of that. The
    /// library alters the store meanwhile; it is then as it was.
    ///
    /// ```
    /// use dispenser::{Reason, Store};
    ///
    /// let mut store = Store::new();
    /// store.load(&std::fs::read("../../examples/a.txt")?)?;
    /// let refusal = store.preview(4, false, &[]).unwrap_err();
    /// assert_eq!((refusal.reason, refusal.line), (Reason::FlowRule, 6));
    /// assert_eq!(store.judge(), Ok(1));
    /// store.replace(4, false, &[])?;
    /// assert_eq!(store.judge(), Err(refusal));
    /// # Ok::<(), Box<dyn std::error::Error>>(())
    /// ```
    pub fn preview(&mut self, name: usize, unit: bool, rows: &[u8]) -> Result<usize, Refusal> {
        decode(ffi::preview(&mut self.bytes, name, u8::from(unit), rows))
    }

    /// The verdict on a channel row; refusal 24 if the number is not that of one,
    /// and 10 if the tables break a flow rule.
    pub fn verdict(&self, channel: usize) -> Result<Verdict, Refusal> {
        decode(ffi::verdict(&self.bytes, channel)).map(verdict_of_answer)
    }

    /// The bytes that the output of a report must have.
    pub fn report_size() -> usize {
        ffi::report_size() as usize
    }

    /// Loads and judges a file and writes its report, which a refused file has
    /// too; answers how many bytes it has.
    ///
    /// ```
    /// use dispenser::Store;
    ///
    /// let mut out = vec![0; Store::report_size()];
    /// let length = Store::new().report(b"[dispenser 1]\n", &mut out)?;
    /// assert_eq!(out[..length], *b"[refused 4 2]\n");
    /// # Ok::<(), dispenser::Refusal>(())
    /// ```
    pub fn report(&mut self, file: &[u8], out: &mut [u8]) -> Result<usize, Refusal> {
        decode(ffi::report(file, &mut self.bytes, out))
    }

    /// Writes the store as text and answers how many bytes it has; the rest of the
    /// output is unaltered.
    pub fn write(&self, out: &mut [u8]) -> Result<usize, Refusal> {
        decode(ffi::write(&self.bytes, out))
    }

    /// The store as text, however long: after infer or replace it may be longer
    /// than a file.
    ///
    /// ```
    /// use dispenser::Store;
    ///
    /// let file = std::fs::read("../../examples/a.txt")?;
    /// let mut store = Store::new();
    /// store.load(&file)?;
    /// assert_eq!(store.text()?, file);
    /// # Ok::<(), Box<dyn std::error::Error>>(())
    /// ```
    pub fn text(&self) -> Result<Vec<u8>, Refusal> {
        let mut text = vec![0; FILE_MAX];
        loop {
            match self.write(&mut text) {
                Ok(length) => {
                    text.truncate(length);
                    return Ok(text);
                }
                Err(refusal) if refusal.reason == Reason::OutputTooShort => {
                    text.resize(2 * text.len(), 0);
                }
                Err(refusal) => return Err(refusal),
            }
        }
    }
}
