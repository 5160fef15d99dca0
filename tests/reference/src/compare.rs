//! The file comparer.

/// Compares bytes with those of the words, the highest byte of each first. The error is the word that has the first byte that is not as it should be, in its
/// place or lacking, or the count of words where the first such byte is left over.
pub fn compare(bytes: &[u8], words: &[u32]) -> Result<(), u64> {
    let whole: Vec<u8> = words.iter().flat_map(|w| w.to_be_bytes()).collect();
    let alike = bytes.iter().zip(&whole).take_while(|(a, b)| a == b).count();
    if alike == bytes.len() && alike == whole.len() {
        Ok(())
    } else {
        Err(alike as u64 / 4)
    }
}
