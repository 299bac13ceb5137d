//! What must hold beside that both programs answer each call alike.

pub const FIRST_FAULT: &str = "the first of the faults put in is named";
pub const UNTOUCHED: &str = "a refused call leaves all that it is lent as it was";
pub const WRONG_LENGTH: &str = "a length that is not exact is refused by 14 at 0";
pub const LOWEST_BYTE: &str = "the lowest byte too large is named, keys before rows";
pub const LOWEST_OFFSET: &str = "27 names the lowest modulus whose offset does not begin with 1";
pub const LOWEST_STRANGER: &str = "13 names the lowest input of an owner above 1";
pub const STRANGERS_TAKEN: &str = "reading and decoding do not look at owners";
pub const FIRST_SELECTOR: &str = "26 names the word of the first selector";
pub const SEATS_PASSED: &str = "whomever outputs name, all answers and bytes are the same";
pub const ROWS_CHARGED: &str =
    "an accepted garbling adds the rows that reading gives to the total named, and to no other";
pub const NAMED_TOTAL: &str = "21 goes by the named total, whatever the others have";
pub const INPUTS_KEPT: &str = "the opened keys of the inputs are their input keys";
pub const KEY_IS_EXTERNAL: &str = "component 0 of every opened key is the external value";
pub const VALUE_TIMES_OFFSET: &str =
    "two keys of a wire differ by the offset times the difference of the plain values";
pub const AS_BY_HAND: &str = "rows and masks of the examples are those worked through by hand";
pub const PLAIN_DECODED: &str = "what is opened decodes to the plain outputs";
pub const OPENS_ANYWAY: &str =
    "opening takes all keys and rows below their moduli, under any round number";
pub const TOTALS_RECKONED: &str =
    "after a sequence each total is its start plus the rows accepted in its name";

/// All of them; a thorough run looks at each.
pub const LAWS: [&str; 18] = [
    FIRST_FAULT,
    UNTOUCHED,
    WRONG_LENGTH,
    LOWEST_BYTE,
    LOWEST_OFFSET,
    LOWEST_STRANGER,
    STRANGERS_TAKEN,
    FIRST_SELECTOR,
    SEATS_PASSED,
    ROWS_CHARGED,
    NAMED_TOTAL,
    INPUTS_KEPT,
    KEY_IS_EXTERNAL,
    VALUE_TIMES_OFFSET,
    PLAIN_DECODED,
    AS_BY_HAND,
    OPENS_ANYWAY,
    TOTALS_RECKONED,
];
