//! The proved functions as the linker sees them, and the nine bytes that every reply starts with.
//!
//! This is the only module with unsafe code. A slice goes over as its pointer and its length, which is what the
//! functions ask for; they read and write nothing else, which is proved of them, and they answer for every input.

use crate::{MOST_BYTES, Refusal};

unsafe extern "C" {
    fn mossladder_read(file: *const u8, file_length: usize, out: *mut u8, out_length: usize) -> usize;
    fn mossladder_derive(file: *const u8, file_length: usize, operator: u16, out: *mut u8, out_length: usize) -> usize;
    fn mossladder_facts(file: *const u8, file_length: usize, out: *mut u8, out_length: usize) -> usize;
    fn mossladder_apply(
        file: *const u8,
        file_length: usize,
        operator: u16,
        predicates: *const u16,
        predicates_length: usize,
        out: *mut u8,
        out_length: usize,
    ) -> usize;
    fn mossladder_simplify(
        file: *const u8,
        file_length: usize,
        operator: u16,
        out: *mut u8,
        out_length: usize,
    ) -> usize;
    fn mossladder_evaluate(
        file: *const u8,
        file_length: usize,
        expr: u16,
        case: *const u8,
        case_length: usize,
        code: *const u8,
        code_length: usize,
        bits: *const u64,
        bits_length: usize,
        out: *mut u8,
        out_length: usize,
    ) -> usize;
}

/// A reply: the refusal's number, 0 for none; the number that goes with it; and what is handed back.
pub struct Reply {
    pub number: u8,
    pub place: u64,
    pub rest: Vec<u8>,
}

const HEAD: usize = 9;

impl Reply {
    /// The reply that `call` writes into a buffer which no reply can fill.
    fn of(call: impl FnOnce(&mut [u8]) -> usize) -> Reply {
        let mut out = vec![0; HEAD + MOST_BYTES + 1];
        let end = call(&mut out);
        assert!(HEAD <= end && end < out.len(), "a reply of {end} bytes cannot occur");
        out.truncate(end);
        let rest = out.split_off(HEAD);
        let place = out[1..].try_into().expect("a head has nine bytes");
        Reply { number: out[0], place: u64::from_be_bytes(place), rest }
    }

    /// What is handed back, where nothing was refused.
    pub fn accepted(self) -> Result<Reply, Refusal> {
        if self.number == 0 { Ok(self) } else { Err(self.refusal()) }
    }

    pub fn refusal(&self) -> Refusal {
        Refusal { number: self.number, place: self.place }
    }

    pub fn text(self) -> String {
        String::from_utf8(self.rest).expect("a listing is ASCII")
    }
}

pub fn read(file: &[u8]) -> Reply {
    // SAFETY: each pointer is valid for the length that follows it; so in every function below.
    Reply::of(|out| unsafe { mossladder_read(file.as_ptr(), file.len(), out.as_mut_ptr(), out.len()) })
}

pub fn derive(file: &[u8], operator: u16) -> Reply {
    // SAFETY: as above
    Reply::of(|out| unsafe { mossladder_derive(file.as_ptr(), file.len(), operator, out.as_mut_ptr(), out.len()) })
}

pub fn facts(file: &[u8]) -> Reply {
    // SAFETY: as above
    Reply::of(|out| unsafe { mossladder_facts(file.as_ptr(), file.len(), out.as_mut_ptr(), out.len()) })
}

pub fn apply(file: &[u8], operator: u16, predicates: &[u16]) -> Reply {
    // SAFETY: as above
    Reply::of(|out| unsafe {
        mossladder_apply(
            file.as_ptr(),
            file.len(),
            operator,
            predicates.as_ptr(),
            predicates.len(),
            out.as_mut_ptr(),
            out.len(),
        )
    })
}

pub fn simplify(file: &[u8], operator: u16) -> Reply {
    // SAFETY: as above
    Reply::of(|out| unsafe { mossladder_simplify(file.as_ptr(), file.len(), operator, out.as_mut_ptr(), out.len()) })
}

/// The cells of a row, as the three numbers of a literal each.
pub struct Cells {
    pub case: [u8; 64],
    pub code: [u8; 64],
    pub bits: [u64; 64],
}

pub fn evaluate(file: &[u8], expr: u16, row: &Cells) -> Reply {
    // SAFETY: as above
    Reply::of(|out| unsafe {
        mossladder_evaluate(
            file.as_ptr(),
            file.len(),
            expr,
            row.case.as_ptr(),
            row.case.len(),
            row.code.as_ptr(),
            row.code.len(),
            row.bits.as_ptr(),
            row.bits.len(),
            out.as_mut_ptr(),
            out.len(),
        )
    })
}
