//! Judges names by the image of a profile, and prints the verdicts as ./aa-trace does: a safe wrapper of the library, and its
//! use. C's table is here a list of bytes that was accepted, and that nobody can change any more.
//!
//!     embed_rs IMAGE LETTERS NAME...
use std::{env, fs, process::exit};

/// Nothing was judged (verdict 0), or it is allowed (1), denied by a rule (2), or some permissions are missing (3).
#[repr(C)]
#[derive(Clone, Copy, Debug, Default, PartialEq, Eq)]
pub struct Answer {
    pub steps: u64,
    pub verdict: u16,
    pub rule: u16,
    pub missing: u16,
}

/// Why an image is refused.
#[repr(C)]
#[derive(Clone, Copy, Debug, PartialEq, Eq)]
pub struct Fault {
    pub number: u16,
    pub place: u32,
}

unsafe extern "C" {
    fn coqetwal_image_verify(image: *const u8, length: usize) -> Fault;
    fn coqetwal_image_judge(image: *const u8, image_length: usize, name: *const u8, length: usize, asked: u32, to: *mut Answer);
}

/// The sum of the numbers of some permissions.
#[derive(Clone, Copy)]
pub struct Permissions(pub u32);

impl Permissions {
    pub const LETTERS: &str = "rwlkma";

    /// The permissions with these letters; none if another letter is among them, or there is no letter.
    pub fn read(text: &str) -> Option<Permissions> {
        let mut numbers = text.chars().map(|letter| Self::LETTERS.find(letter).map(|at| 1 << at));
        let sum = numbers.try_fold(0, |sum, number| Some(sum | number?))?;
        (sum != 0).then_some(Permissions(sum))
    }
}

/// An image that was accepted.
pub struct Table {
    image: Vec<u8>,
}

impl Table {
    pub fn load(image: Vec<u8>) -> Result<Table, Fault> {
        // SAFETY: a vector's pointer isn't null, and points to as many bytes as its length says.
        match unsafe { coqetwal_image_verify(image.as_ptr(), image.len()) } {
            Fault { number: 0, .. } => Ok(Table { image }),
            fault => Err(fault),
        }
    }

    pub fn judge(&self, name: &[u8], asked: Permissions) -> Answer {
        let mut answer = Answer::default();
        // SAFETY: as above; the image was accepted by `load`, and nothing in this type changes it.
        unsafe {
            coqetwal_image_judge(self.image.as_ptr(), self.image.len(), name.as_ptr(), name.len(), asked.0, &mut answer);
        }
        answer
    }
}

fn line_of(answer: Answer) -> String {
    let letters = Permissions::LETTERS.char_indices().filter(|(at, _)| answer.missing >> at & 1 == 1);
    match answer.verdict {
        1 => "allowed".into(),
        2 => format!("denied by rule {}", answer.rule),
        3 => format!("no rule for {}", letters.map(|(_, letter)| letter).collect::<String>()),
        _ => "bad permissions".into(),
    }
}

fn main() {
    let words: Vec<_> = env::args_os().collect();
    if words.len() < 3 {
        exit(2);
    }
    // A text that isn't permissions has the sum 0, which has no answer.
    let asked = words[2].to_str().and_then(Permissions::read).unwrap_or(Permissions(0));
    let table = Table::load(fs::read(&words[1]).unwrap_or_default()).unwrap_or_else(|fault| {
        eprintln!("refused: image {} at {}", fault.number, fault.place);
        exit(3)
    });
    for name in &words[3..] {
        println!("{}", line_of(table.judge(name.as_encoded_bytes(), asked)));
    }
}
