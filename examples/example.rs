//! Writes a mark for a serial, damages it within reach and reads it back; then damages it beyond reach, and it is refused.
use std::ffi::{c_char, CStr};

const NUMERIC: u8 = 1;
const DARK: u8 = 1;
const UNKNOWN: u8 = 2;
const SIZE_SQUARE: usize = 35721;
const SIZE_BUFFER: usize = 12288;
const SIZE_RECEIPT: usize = 12;

#[repr(C)]
struct Answer {
    status: usize,
    value: usize,
}

#[rustfmt::skip]
extern "C" {
    fn hx_write_smallest(level: usize, mask: usize, script: *const u8, script_length: usize, payload: *const u8, payload_length: usize,
                         square: *mut u8, square_length: usize) -> Answer;
    fn hx_read_square(square: *const u8, square_length: usize, side: usize, payload: *mut u8, payload_length: usize, script: *mut u8,
                      script_length: usize, receipt: *mut u8, receipt_length: usize) -> usize;
    fn hx_refusal_words(status: usize) -> *const c_char;
}

/// A refusal, in the words of the library.
fn refused(status: usize) -> String {
    // SAFETY: the words last as long as the program.
    let words = unsafe { CStr::from_ptr(hx_refusal_words(status)) };
    format!("refused: {status}, {}", words.to_string_lossy())
}

/// The smallest mark at level 2 with mask 0, one numeric segment: its version, and its modules row by row from the top left.
fn write_serial(digits: &[u8]) -> Result<(usize, Vec<u8>), String> {
    let script = [NUMERIC, (digits.len() / 256) as u8, (digits.len() % 256) as u8];
    let mut square = vec![0; SIZE_SQUARE];
    // SAFETY: each pointer has its length, and the square overlaps neither script nor payload.
    let answer = unsafe {
        hx_write_smallest(2, 0, script.as_ptr(), script.len(), digits.as_ptr(), digits.len(), square.as_mut_ptr(), square.len())
    };
    if answer.status != 0 {
        return Err(refused(answer.status));
    }
    square.truncate((2 * answer.value + 21) * (2 * answer.value + 21));
    Ok((answer.value, square))
}

fn read_serial(side: usize, square: &[u8]) -> Result<String, String> {
    let (mut payload, mut script, mut receipt) = (vec![0; SIZE_BUFFER], vec![0; SIZE_BUFFER], [0; SIZE_RECEIPT]);
    let (text, commands, fields) = (payload.as_mut_ptr(), script.as_mut_ptr(), receipt.as_mut_ptr());
    // SAFETY: each pointer has its length, and no two buffers overlap.
    let status =
        unsafe { hx_read_square(square.as_ptr(), square.len(), side, text, SIZE_BUFFER, commands, SIZE_BUFFER, fields, SIZE_RECEIPT) };
    if status != 0 {
        return Err(refused(status));
    }
    let number = |at: usize| usize::from(receipt[at]) * 256 + usize::from(receipt[at + 1]);
    Ok(format!("read: {}, codewords repaired: {}", String::from_utf8_lossy(&payload[..number(7)]), number(4)))
}

fn main() -> Result<(), String> {
    let serial = "00471100";
    let (version, mut square) = write_serial(serial.as_bytes())?;
    let side = 2 * version + 21;
    println!("written: {serial}, version {version}, {side} x {side} modules");

    // The one block of this mark has 12 parity codewords. Three wrong codewords and four with an unknown module need 2 x 3 + 4 + 2
    // of them: just within reach. One of the four is right as it is, since an unknown module is taken as light: six are repaired.
    (9..=13).step_by(2).for_each(|row| square[row * side + 6] ^= 1);
    (9..=12).for_each(|row| square[row * side + 12] = UNKNOWN);
    println!("damaged: column 6, rows 9, 11 and 13 flipped; column 12, rows 9 to 12 unknown");
    println!("{}", read_serial(side, &square)?);

    square[10 * side..11 * side].fill(DARK);
    println!("damaged: row 10 dark too");
    println!("{}", read_serial(side, &square).expect_err("it must be refused"));
    Ok(())
}
