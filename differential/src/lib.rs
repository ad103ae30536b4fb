//! The crate as oracle, a model written from 01, and the inputs they are asked about.

pub mod damage;
pub mod expansion;
pub mod generate;
pub mod generate_lists;
pub mod generate_texts;
pub mod hand;
pub mod hand_lists;
pub mod hand_names;
pub mod hand_texts;
pub mod judge;
pub mod judge_lists;
pub mod judge_texts;
pub mod lists;
pub mod model;
pub mod oracle;
pub mod outputs;
pub mod records;
pub mod steps;
