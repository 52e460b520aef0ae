//! The impulse responses of a band set: "h(0) = 1, h(1) = G / 2^22, h(k) = (G × h(k-1) - B × h(k-2)) / 2^22." "H is the
//! sum of the first n absolute values of that band's impulse response; for bands 0 to 3 it is the sum of the first n
//! |h(k) - h(k-1)|, h(-1) = 0."

use super::fraction::Fraction;
use crate::unit::feeds_back;

/// What the response of a band and its sum go by.
#[derive(Clone, Copy, PartialEq)]
struct Kind {
    b: i32,
    g: i32,
    feeds_back: bool,
}

/// The response of one band and its H up to now.
struct Response {
    kind: Kind,
    /// h of the next step and of the one before it.
    next: Fraction,
    last: Fraction,
    sum: Fraction,
}

impl Response {
    fn new(kind: Kind) -> Response {
        let [next, last, sum] = [1, 0, 0].map(Fraction::whole);
        Response { kind, next, last, sum }
    }

    /// Adds one absolute value more.
    fn grow(&mut self) {
        let Kind { b, g, feeds_back } = self.kind;
        let term = Fraction::sum(&[(1, &self.next), (-i64::from(feeds_back), &self.last)]);
        let sign = if term.is_negative() { -1 } else { 1 };
        self.sum = Fraction::sum(&[(1, &self.sum), (sign, &term)]);
        let after = Fraction::sum(&[(g.into(), &self.next), (-i64::from(b), &self.last)]).over_2_22();
        self.last = std::mem::replace(&mut self.next, after);
    }
}

/// The responses of ten bands; bands of the same kind share one.
pub struct Responses {
    responses: Vec<Response>,
    /// Which of them belongs to a band.
    places: [usize; 10],
}

impl Responses {
    pub fn new(set: &[i32; 30]) -> Responses {
        let mut different: Vec<Kind> = Vec::new();
        let places = std::array::from_fn(|band| {
            let kind = Kind { b: set[3 * band + 1], g: set[3 * band + 2], feeds_back: feeds_back(band) };
            let known = different.iter().position(|other| *other == kind);
            known.unwrap_or_else(|| {
                different.push(kind);
                different.len() - 1
            })
        });
        let responses = different.into_iter().map(Response::new).collect();
        Responses { responses, places }
    }

    /// A frame more.
    pub fn grow(&mut self) {
        self.responses.iter_mut().for_each(Response::grow);
    }

    /// The sum of weight × H over all bands, where H has as many terms as there were frames.
    pub fn weighted(&self, weights: &[i64; 10]) -> Fraction {
        let mut terms: Vec<(i64, &Fraction)> = self.responses.iter().map(|response| (0, &response.sum)).collect();
        for (&place, weight) in self.places.iter().zip(weights) {
            terms[place].0 += weight;
        }
        Fraction::sum(&terms)
    }
}
