//! A second implementation of the double-and-add sheets, written from the scope document alone,
//! for rows from the top down from source document 000, for packed columns from their definition,
//! for the next limit that pays by the cheapest sheet at every limit, and for the dearest scalar by
//! all lists of digits. The differential test compares the library with it.

pub mod answer;
pub mod big;
pub mod calls;
pub mod card;
pub mod carry_stops;
pub mod changed_orders;
pub mod cheapest;
pub mod codes;
pub mod damage;
pub mod dearest;
pub mod direction;
pub mod down;
pub mod edges;
pub mod foreign;
pub mod joint;
pub mod least;
pub mod licences;
pub mod limits;
pub mod next_limit;
pub mod packing;
pub mod plan;
pub mod random;
pub mod reader;
pub mod row;
pub mod samples;
pub mod scalars;
pub mod sheet;
