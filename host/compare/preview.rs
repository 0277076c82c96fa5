//! Requests in numbers carried out, and baskets of them previewed, by request W6 of document 02.

use crate::calls::{self, Call, Results, OPERATIONS};
use crate::requests::{arguments_of, Request};
use crate::tables::{Pair, Tables};

/// "A basket of up to 16 requests"
pub const BASKET_SIZE: usize = 16;

/// The places of a basket, and how many of them are its requests.
#[derive(Clone, Debug, PartialEq)]
pub struct Basket {
    pub places: [Request; BASKET_SIZE],
    pub count: u64,
}

impl Basket {
    /// The requests, of which there are at most as many as places.
    pub fn requests(&self) -> &[Request] {
        &self.places[..BASKET_SIZE.min(self.count as usize)]
    }
}

/// What a preview is lent to write: a scratch buffer for ledger and tables each, and places for the answers.
#[derive(Clone)]
pub struct Previewed {
    pub scratch: Tables,
    pub answers: [u64; BASKET_SIZE],
}

/// The call as a request with this number in the places behind its arguments, if it is of one of the seven kinds.
pub fn request_of(call: &Call, behind: u64) -> Option<Request> {
    let (kind, arguments) = (call.operation() as u64 + 1, call.arguments());
    arguments_of(kind).ok()?;
    let mut request = Request { kind, arguments: [behind; 9] };
    request.arguments[..arguments.len()].copy_from_slice(&arguments);
    Some(request)
}

/// The call that a request is, or 3.
pub fn call_of(request: &Request) -> Result<Call, u64> {
    let count = arguments_of(request.kind)?.len();
    let (operation, ..) = OPERATIONS[request.kind as usize - 1];
    Ok(Call::new(operation, &request.arguments[..count]))
}

/// Carries the request out on the tables and answers its number.
pub fn perform(pair: Pair, request: &Request, tables: &mut Tables) -> u64 {
    match call_of(request) {
        Ok(call) => calls::perform(pair, &call, tables, &mut Results::before(&call, 0)),
        Err(number) => number,
    }
}

/// Previews the basket and answers its number. "They are those that performing the basket on a copy gives, and the scratch ends
/// equal to that copy."
pub fn preview(pair: Pair, tables: &Tables, basket: &Basket, previewed: &mut Previewed) -> u64 {
    if basket.count > BASKET_SIZE as u64 {
        return 17;
    }
    if previewed.scratch.lengths() != tables.lengths() {
        return 18;
    }
    let (mut copy, mut answers) = (tables.clone(), [0; BASKET_SIZE]);
    for (answer, request) in answers.iter_mut().zip(basket.requests()) {
        *answer = perform(pair, request, &mut copy);
    }
    *previewed = Previewed { scratch: copy, answers };
    0
}
