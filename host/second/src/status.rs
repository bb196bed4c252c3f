//! "Each answer has a status, for numbers 0 to 40 in order", of request 5/13:
//! "The new answer 41, acceptance_closed, status 409", and of request 6/13:
//! "Answer 43, wallet_closed, status 403" and "Answer 42, wallet_not_empty,
//! status 409".

/// Numbers 0 to 43.
pub const ANSWERS: usize = 44;

const STATUSES: [u64; ANSWERS] = [
    200, 500, 500, 400, 409, 503, 400, 403, 400, 400, 400, 409, 400, 404, 403, 400, 404, 402, 400,
    429, 400, 400, 404, 404, 400, 400, 400, 404, 403, 409, 400, 400, 404, 403, 409, 400, 409, 507,
    507, 507, 507, 409, 409, 403,
];

/// "Any other number has status 500."
pub fn status(number: u64) -> u64 {
    usize::try_from(number)
        .ok()
        .and_then(|index| STATUSES.get(index).copied())
        .unwrap_or(500)
}
