//! The backup box written a second time, from documents 01 and 02 and the header's words alone: the
//! model that the differential tests compare with.

pub mod agreement;
pub mod call;
pub mod cases;
pub mod change_list;
pub mod clinic;
pub mod far_end;
pub mod form;
pub mod history;
pub mod keeping;
pub mod layout;
pub mod layout_2;
pub mod plain;
pub mod play;
pub mod prng;
pub mod random_books;
pub mod random_calls;
pub mod random_lists;
pub mod refusal;
pub mod store;
pub mod tally;
pub mod view;
