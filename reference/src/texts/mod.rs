//! Job texts to compare on: random lists, how they are written, borders, and damage of many kinds.

pub mod border;
pub mod border_lines;
pub mod byte_damage;
pub mod damage;
pub mod form_damage;
pub mod line_damage;
pub mod lists;
pub mod long;
pub mod odd_parts;
pub mod writing;
