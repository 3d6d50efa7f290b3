//! The numbers of the refusals: each is that of the first test that failed.

/// A refusal's number: one of these.
pub type Refusal = u32;

/// A line is not of the form that is due (S28, P11, P28).
pub const FORM: Refusal = 1;
/// A number outside its range (S29), or something handed in that does not pass (H).
pub const OUT_OF_RANGE: Refusal = 2;
/// A broader category not below its own (S12); own in a signature (S13).
pub const NOT_BELOW: Refusal = 3;
/// The buffer is shorter than the text (W2).
pub const SHORT_BUFFER: Refusal = 4;
/// A subject is unknown (N1, M1, C1, A1).
pub const UNKNOWN_SUBJECT: Refusal = 5;
/// A cell is unknown or another's (M2, C2); a call is unknown or for another to answer (A2).
pub const NOT_HELD: Refusal = 6;
/// No type, or none of the kind that is asked for (R14, N2, N3, M3, E10).
pub const UNKNOWN_TYPE: Refusal = 7;
/// Free or loose does not hold (X1); the first layer is unfit (C15).
pub const UNRELATED: Refusal = 8;
/// The target is own, and the base is not the receiver's (X2).
pub const NOT_OWNER: Refusal = 9;
/// Strict does not hold (X7).
pub const NOT_STRICT: Refusal = 10;
/// No type number is free (D15).
pub const TYPES_FULL: Refusal = 11;
/// No place is free (N4, X9).
pub const PLACES_FULL: Refusal = 12;
/// No cell is free (N7, M5, C17, A10).
pub const CELLS_FULL: Refusal = 13;
/// No such method, or one that the type of the cell does not have as avail (C3).
pub const NOT_CALLABLE: Refusal = 14;
/// The wrong number of arguments, a cell not held, or a value where none is due or the reverse
/// (C4, C5, A5, A6).
pub const WRONG_VALUES: Refusal = 15;
/// A number too wide for w32 (C14).
pub const TOO_WIDE: Refusal = 16;
/// The call has its answer (A3).
pub const ANSWERED_ALREADY: Refusal = 17;
/// The subject has made all of its calls (C7).
pub const CALLS_FULL: Refusal = 18;
/// What would be 8 or 10, at a layer past the first (C13).
pub const LATER_LAYER: Refusal = 19;
/// A list of times too long, with a time that falls or is too late, or too large a tolerance (V3).
pub const UNFIT_TIMES: Refusal = 22;
