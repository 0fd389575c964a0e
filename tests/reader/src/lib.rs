//! An independent reader of the FTD protocol (JR/T 0016-2004), for tests. It is written from the papers alone and
//! shares no code, table or generated file with the program that it tests.

pub mod book;
pub mod book_cases;
pub mod calendar;
pub mod checkpoints;
pub mod cut;
pub mod few;
pub mod fix;
pub mod fix_calls;
pub mod fix_cases;
pub mod fix_frames;
pub mod generate;
pub mod given;
pub mod items;
pub mod lister;
pub mod makeup;
pub mod order;
pub mod packet;
pub mod plain;
pub mod receiving;
pub mod relay;
pub mod script;
pub mod serving;
pub mod several;
pub mod start;
#[rustfmt::skip]
pub mod tables;
