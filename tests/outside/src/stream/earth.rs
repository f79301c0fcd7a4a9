//! An answer of `earth`: number, place, earth return (1 there is one, 0 there is none or the call is
//! refused), whose bytes are shown, where they start, how many they are (four bytes each), and these
//! bytes themselves.

use super::{fill, part, word, Taken};
use crate::judge::earth::{trace, Traced};
use crate::judge::NETWORK;
use crate::make::{EarthCase, MOST_NET};
use crate::paper::Paper;
use std::io::Read;

#[derive(Clone, PartialEq, Eq)]
pub struct EarthAnswer {
    pub verdict: Traced,
    /// The bytes that the verdict's part names.
    pub shown: Vec<u8>,
}

pub fn answer(paper: &Paper, case: &EarthCase) -> EarthAnswer {
    let verdict = trace(paper, &case.net, &case.label);
    let lent = match verdict.whose {
        NETWORK => &case.net,
        _ => &case.label,
    };
    EarthAnswer {
        verdict,
        shown: part(lent, verdict.start, verdict.length),
    }
}

impl EarthAnswer {
    pub fn bytes(&self) -> Vec<u8> {
        let v = &self.verdict;
        let numbers = [v.number, v.place, v.earthed, v.whose, v.start, v.length];
        let mut bytes: Vec<u8> = numbers.iter().flat_map(|x| x.to_le_bytes()).collect();
        bytes.extend(&self.shown);
        bytes
    }
}

/// The rest of an answer, behind its number.
pub fn take(from: &mut impl Read, number: u32) -> Taken<EarthAnswer> {
    let mut rest = [0; 20];
    if fill(from, &mut rest)? < 20 {
        return Ok(Err("output ends inside an answer's head".into()));
    }
    let verdict = Traced {
        number,
        place: word(&rest, 0),
        earthed: word(&rest, 4),
        whose: word(&rest, 8),
        start: word(&rest, 12),
        length: word(&rest, 16),
    };
    // No more bytes can be shown than were lent.
    let length = verdict.length as usize;
    if length > MOST_NET {
        return Ok(Err(format!("{length} bytes shown, {verdict:?}")));
    }
    let mut shown = vec![0; length];
    if fill(from, &mut shown)? < length {
        let what = format!("output ends inside the shown bytes, {verdict:?}");
        return Ok(Err(what));
    }
    Ok(Ok(EarthAnswer { verdict, shown }))
}
