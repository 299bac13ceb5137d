//! Sheets for two: the smaller form, in which one side garbles and the other opens.
//!
//! A wire's key for the value v is its zero key plus v·D. Component 0 of a zero key is the wire's mask
//! and that of every offset is 1, so component 0 of any key is the external value. There are no other
//! keys than the garbler's: in every pad it is the only sender, and the receiver, 0.
//!
//! The seats that outputs name are passed over: there is one sheet of masks, with all of them.

mod checks;
mod decode;
pub mod draw;
mod garble;
mod inputs;
mod open;
mod rows;

pub use checks::{circuit_for_two, read};
pub use decode::decode;
pub use garble::garble;
pub use inputs::input_keys;
pub use open::open;
pub use rows::{row_moduli, rows_of, total_rows};
