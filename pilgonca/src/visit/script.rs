//! A sheet with requests behind it, as the program `script` runs it.

use crate::raw;

/// What the program `script` prints for an input: a sheet with requests behind it (P).
///
/// ```
/// let input = [pilgonca::EXAMPLE, b"do=new 0 1 4\ndo=move 0 0 1 7\n"].concat();
/// assert_eq!(pilgonca::script(&input), b"got=0 0\nno=7\n");
/// ```
pub fn script(input: &[u8]) -> Vec<u8> {
    // a longer input gets one short line (P1)
    let room = input.len().min(raw::MAX_SCRIPT) + raw::SCRIPT_LONGER;
    let (mut buffer, mut length) = (vec![0; room], 0);
    let code = raw::script(input, &mut buffer, &mut length);
    assert_eq!(code, 0, "{room} bytes hold the output of every input (P18)");
    buffer.truncate(length);
    buffer
}
