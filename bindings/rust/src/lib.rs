//! First-order rules to normal forms: nine conversions of a rule's text, by code that is proved against its contract.
//!
//! [`convert`] takes care of the buffers. [`convert_into`] works in buffers of the caller and allocates nothing. Rule text, refusals
//! and forms are those of the file program (README.md at the top of the repository).
//!
//! ```
//! use wasileko::{convert, Conversion};
//! let rule = b"not\nand\npred\tP\t0\npred\tQ\t0\n";
//! assert_eq!(convert(Conversion::Nnf, rule).unwrap(), b"or\nnot\npred\tP\t0\nnot\npred\tQ\t0\n");
//! ```
use std::error::Error;
use std::fmt;

/// What a work buffer has to hold at least.
pub const WORK: usize = 32_768;

/// What the file program lends for a result; most results fit.
pub const OUT: usize = 65_536;

#[derive(Clone, Copy, Debug, PartialEq, Eq, Hash)]
pub enum Conversion {
    Simplify,
    Nnf,
    Pnf,
    Snf,
    Cnf,
    Dnf,
    PnfSnf,
    SnfCnf,
    SnfDnf,
}

impl Conversion {
    pub const ALL: [Conversion; 9] = [
        Conversion::Simplify,
        Conversion::Nnf,
        Conversion::Pnf,
        Conversion::Snf,
        Conversion::Cnf,
        Conversion::Dnf,
        Conversion::PnfSnf,
        Conversion::SnfCnf,
        Conversion::SnfDnf,
    ];

    /// Its name in the first line of a rules file.
    pub fn name(self) -> &'static str {
        match self {
            Conversion::Simplify => "simplify",
            Conversion::Nnf => "nnf",
            Conversion::Pnf => "pnf",
            Conversion::Snf => "snf",
            Conversion::Cnf => "cnf",
            Conversion::Dnf => "dnf",
            Conversion::PnfSnf => "pnf-snf",
            Conversion::SnfCnf => "snf-cnf",
            Conversion::SnfDnf => "snf-dnf",
        }
    }

    fn function(self) -> Function {
        match self {
            Conversion::Simplify => wasileko_simplify,
            Conversion::Nnf => wasileko_nnf,
            Conversion::Pnf => wasileko_pnf,
            Conversion::Snf => wasileko_snf,
            Conversion::Cnf => wasileko_cnf,
            Conversion::Dnf => wasileko_dnf,
            Conversion::PnfSnf => wasileko_pnf_snf,
            Conversion::SnfCnf => wasileko_snf_cnf,
            Conversion::SnfDnf => wasileko_snf_dnf,
        }
    }
}

/// Why a conversion gives no text.
#[derive(Clone, Copy, Debug, PartialEq, Eq, Hash)]
pub struct Refusal {
    /// 1 to 9.
    pub number: u64,
    /// The line (2 and 3), the stage (6, 7 and 8), or 0.
    pub place: usize,
}

impl Refusal {
    /// The refusal in words, without its place.
    pub fn message(&self) -> &'static str {
        match self.number {
            1 => "the result is longer than the out buffer",
            2 => "the text is malformed",
            3 => "the rule's weight is over 1,024 or its depth over 64",
            4 => "the rule is not in the form that the conversion starts from",
            5 => "a constant or function of the rule has a # in its name",
            6 => "a variable of the stage's result is over 24 bytes",
            7 => "the stage's result has a weight over 1,024 or a function of more than 32 arguments",
            8 => "there are more than 256 raw clauses or 2,048 raw literals",
            9 => "the work buffer is too short",
            _ => "unknown refusal",
        }
    }
}

impl fmt::Display for Refusal {
    fn fmt(&self, f: &mut fmt::Formatter<'_>) -> fmt::Result {
        write!(f, "refused {}: {}", self.number, self.message())?;
        match self.number {
            2 | 3 => write!(f, " (line {})", self.place),
            6..=8 => write!(f, " (stage {})", self.place),
            _ => Ok(()),
        }
    }
}

impl Error for Refusal {}

/// The text that a conversion gives of a rule's text. The out buffer grows until the result fits, so refusals 1 and 9 do not come up.
pub fn convert(conversion: Conversion, text: &[u8]) -> Result<Vec<u8>, Refusal> {
    let mut work = vec![0; WORK];
    let mut out = vec![0; OUT];
    loop {
        match convert_into(conversion, text, &mut out, &mut work) {
            Ok(length) => {
                out.truncate(length);
                return Ok(out);
            }
            // Results are bounded by the limits on clauses and weight, so this ends: at 128 MiB at the latest.
            Err(Refusal { number: 1, .. }) => out.resize(2 * out.len(), 0),
            Err(refusal) => return Err(refusal),
        }
    }
}

/// The same in lent buffers: the text is put to the front of `out`, and its length is given. A refusal leaves `out` as it was. `work` needs
/// [`WORK`] bytes, with anything in them; they are zero afterwards, unless `work` was refused as too short. Any number of calls may use
/// the same buffers, one after the other.
pub fn convert_into(conversion: Conversion, text: &[u8], out: &mut [u8], work: &mut [u8]) -> Result<usize, Refusal> {
    let mut place = 0;
    // The function has no precondition beside what these references already say: each pointer and length is one live slice, and the
    // two that are written are lent to this call alone.
    let number = unsafe { conversion.function()(text.as_ptr(), text.len(), out.as_mut_ptr(), out.len(), work.as_mut_ptr(), work.len(), &mut place) };
    match number {
        0 => Ok(place),
        _ => Err(Refusal { number, place }),
    }
}

type Function = unsafe extern "C" fn(*const u8, usize, *mut u8, usize, *mut u8, usize, *mut usize) -> u64;

// crates/exports/src/lib.rt: a slice is passed as its pointer and its length.
extern "C" {
    fn wasileko_simplify(text: *const u8, n: usize, out: *mut u8, o: usize, work: *mut u8, w: usize, place: *mut usize) -> u64;
    fn wasileko_nnf(text: *const u8, n: usize, out: *mut u8, o: usize, work: *mut u8, w: usize, place: *mut usize) -> u64;
    fn wasileko_pnf(text: *const u8, n: usize, out: *mut u8, o: usize, work: *mut u8, w: usize, place: *mut usize) -> u64;
    fn wasileko_snf(text: *const u8, n: usize, out: *mut u8, o: usize, work: *mut u8, w: usize, place: *mut usize) -> u64;
    fn wasileko_cnf(text: *const u8, n: usize, out: *mut u8, o: usize, work: *mut u8, w: usize, place: *mut usize) -> u64;
    fn wasileko_dnf(text: *const u8, n: usize, out: *mut u8, o: usize, work: *mut u8, w: usize, place: *mut usize) -> u64;
    fn wasileko_pnf_snf(text: *const u8, n: usize, out: *mut u8, o: usize, work: *mut u8, w: usize, place: *mut usize) -> u64;
    fn wasileko_snf_cnf(text: *const u8, n: usize, out: *mut u8, o: usize, work: *mut u8, w: usize, place: *mut usize) -> u64;
    fn wasileko_snf_dnf(text: *const u8, n: usize, out: *mut u8, o: usize, work: *mut u8, w: usize, place: *mut usize) -> u64;
}
