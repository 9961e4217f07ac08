//! Tables, states and lists of faults as bytes, from the Rust version's values,
//! and tables and states back. What comes back is nothing where 01 says 1 or 2.

mod faults;
mod state;
mod table;
mod taken;

pub use faults::faults_form;
pub use state::{old_state_of, state_form, state_of};
pub use table::{slot_form, table_form, HEADER_BYTES, SLOT_BYTES};
pub use taken::table_of;
