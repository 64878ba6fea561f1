//! The label in block 1, straight from its bytes.

const MARK: &[u8; 12] = b"DECRT11A    ";
const BLANKS: [u8; 12] = [b' '; 12];

/// Number, whether there is a label, name and owner.
pub type Label = (u16, bool, [u8; 12], [u8; 12]);

fn is_label(bytes: &[u8]) -> bool {
    bytes.iter().all(|b| (32..=126).contains(b))
}

#[inline(never)]
pub fn read_label(block: &[u8]) -> Label {
    let Ok(block): Result<&[u8; 512], _> = block.try_into() else {
        return (25, false, BLANKS, BLANKS);
    };
    if &block[496..508] != MARK {
        return (0, false, BLANKS, BLANKS);
    }
    if !is_label(&block[472..496]) {
        return (25, false, BLANKS, BLANKS);
    }
    (0, true, block[472..484].try_into().unwrap(), block[484..496].try_into().unwrap())
}

#[inline(never)]
pub fn write_label(block: &mut [u8], name: &[u8; 12], owner: &[u8; 12]) -> u16 {
    if block.len() != 512 || !is_label(name) || !is_label(owner) {
        return 25;
    }
    block[472..484].copy_from_slice(name);
    block[484..496].copy_from_slice(owner);
    block[496..508].copy_from_slice(MARK);
    0
}
