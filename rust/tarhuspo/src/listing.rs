//! A list of instructions as text, in pieces.

use crate::ffi;

/// What a listing gave: one piece of the text. Every field but `status` is 0 or false when `status`
/// is not 0.
#[derive(Debug, Clone, Copy, PartialEq, Eq)]
pub struct Listed {
    /// Bytes of text that were written.
    pub written: u64,
    /// Where in the code the next piece starts, if lines remain. Else where the refused instruction
    /// starts that has the last line, or the length of the code.
    pub next: u64,
    /// 0 if the piece was written, else 1 or 8; [`describe`](crate::describe) has each.
    pub status: u32,
    /// Whether lines remain. `next` is the place to take them from.
    pub more: bool,
}

/// Writes a line for each instruction of `code` from `place` on into `text`, as many whole lines as
/// fit, and with place 0 a line of headings in front.
///
/// A line has the place, the length, the mnemonic, the vector width in bits and the status of the
/// instruction, with tabs between. All features are there. The line of the first instruction that
/// is refused is the last one; it has length 0, name `-` and width 0. Status 4 is written with a
/// colon and its [`reason`](crate::reason).
///
/// `code` has at most 16,384 bytes, `place` is at most its length, and `text` has at least 64
/// bytes. Those of `text` behind the last line stay as they are. A piece takes as long as its lines
/// do, wherever they stand.
///
/// Where lines remain, `next` is larger than `place`. So this loop ends, and the pieces joined are
/// the whole text, whatever size `text` has:
///
/// ```
/// use tarhuspo::limits::TEXT_LEAST;
/// use tarhuspo::listing;
///
/// // vunpcklps xmm1, xmm2, xmm3 and vpshufd xmm1, xmm2, 0x1b twice, then the start of another.
/// let steps = [0xC5, 0xE8, 0x14, 0xCB, 0xC5, 0xF9, 0x70, 0xCA, 0x1B].repeat(2);
/// let code = [&steps[..], &[0xC5, 0xF9, 0x70]].concat();
///
/// let (mut text, mut lines, mut place) = ([0; TEXT_LEAST], String::new(), 0);
/// loop {
///     let listed = listing(&code, place, &mut text);
///     assert_eq!(listed.status, 0);
///     lines += std::str::from_utf8(&text[..listed.written as usize]).unwrap();
///     place = listed.next as usize;
///     if !listed.more {
///         break;
///     }
/// }
/// assert_eq!(
///     lines,
///     "at\tlen\tname\tbits\tanswer\n\
///      0\t4\tVUNPCKLPS\t128\t0\n\
///      4\t5\tVPSHUFD\t128\t0\n\
///      9\t4\tVUNPCKLPS\t128\t0\n\
///      13\t5\tVPSHUFD\t128\t0\n\
///      18\t0\t-\t0\t2\n"
/// );
/// // The last line is a refusal's, and `next` is its place.
/// assert_eq!(place, 18);
/// ```
///
/// A text of [`TEXT_WHOLE`](crate::limits::TEXT_WHOLE) bytes gets the whole listing of every list
/// in one piece:
///
/// ```
/// use tarhuspo::limits::{CODE_LIMIT, TEXT_WHOLE};
/// use tarhuspo::listing;
///
/// let mut text = vec![0; TEXT_WHOLE];
/// let code = [0xC5, 0xE8, 0x14, 0xCB].repeat(CODE_LIMIT / 4);
/// let listed = listing(&code, 0, &mut text);
/// assert_eq!((listed.next, listed.status, listed.more), (16_384, 0, false));
/// assert!(text[..listed.written as usize].ends_with(b"\n16380\t4\tVUNPCKLPS\t128\t0\n"));
///
/// // vpermb with b set, which it does not have.
/// let listed = listing(&[0x62, 0xF2, 0x6D, 0x58, 0x8D, 0x08], 0, &mut text);
/// assert_eq!((listed.next, listed.status, listed.more), (0, 0, false));
/// assert!(text[..listed.written as usize].ends_with(b"\n0\t0\t-\t0\t4:5\n"));
/// ```
///
/// Any place in the code will do. One inside an instruction is decoded from there:
///
/// ```
/// # use tarhuspo::listing;
/// // vpshufd xmm1, xmm2, 0x1b, and vunpcklps xmm1, xmm2, xmm3 from byte 5 on.
/// let code = [0xC5, 0xF9, 0x70, 0xCA, 0x1B, 0xC5, 0xE8, 0x14, 0xCB];
/// let mut text = [0; 64];
/// let listed = listing(&code, 5, &mut text);
/// assert_eq!(&text[..listed.written as usize], b"5\t4\tVUNPCKLPS\t128\t0\n");
///
/// let listed = listing(&code, 2, &mut text);
/// assert_eq!(&text[..listed.written as usize], b"2\t0\t-\t0\t3\n");
///
/// // At the end there is no line, and behind it no place.
/// let listed = listing(&code, 9, &mut text);
/// assert_eq!((listed.written, listed.next, listed.status, listed.more), (0, 9, 0, false));
/// assert_eq!(listing(&code, 10, &mut text).status, 1);
/// ```
pub fn listing(code: &[u8], place: usize, text: &mut [u8]) -> Listed {
    // SAFETY: a slice's pointer is non-null, aligned and valid for its length, and `text` overlaps
    // no other slice, because it is borrowed mutably. The library reads these slices, writes to
    // `text` alone and keeps no pointer.
    let answer = unsafe {
        ffi::tarhuspo_listing(
            code.as_ptr(),
            code.len(),
            place,
            text.as_mut_ptr(),
            text.len(),
        )
    };
    Listed {
        written: answer.written,
        next: answer.next,
        status: answer.status,
        more: answer.more != 0,
    }
}
