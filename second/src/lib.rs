//! The independent second program, written from document 01 alone.
//!
//! The whole book is held in memory and every figure is an i128, in the most
//! obvious way, so that it shares no shape with the library it is compared to.
//! The modules stand in the order of document 01.

pub mod quantities;
pub mod limits;
pub mod book;
pub mod measure;
pub mod dropped;
pub mod reliability;
pub mod deviation;
pub mod roster;
pub mod performance;
pub mod members;
pub mod share;
pub mod rcr;
pub mod cents;
pub mod listing;
pub mod week;
pub mod replay;
pub mod sheet;
pub mod sheet_text;
pub mod writer;
pub mod book_text;
pub mod strip;
pub mod strip_text;
pub mod calendar;
pub mod report;
pub mod report_read;
pub mod report_text;
pub mod panel;
pub mod watch;
pub mod web;

pub mod invariants;
pub mod rules;

pub mod write;
pub mod describe;
pub mod table_15;
pub mod worked;
pub mod chance;
pub mod swings;
pub mod unequal;
pub mod groups;
pub mod make;
pub mod bench;
pub mod damage;
pub mod records;
pub mod lines;
pub mod sweep;
pub mod vectors;
pub mod library;
pub mod boundary;
pub mod script;
pub mod doors;
pub mod week_script;
pub mod week_books;
pub mod sheet_script;
pub mod sheet_trials;
pub mod writer_fields;
pub mod writer_script;
pub mod writer_trials;
pub mod strip_units;
pub mod strip_script;
pub mod strip_trials;
pub mod report_door;
pub mod report_lines;
pub mod report_words;
pub mod report_changes;
pub mod report_script;
pub mod report_trials;
pub mod panel_door;
pub mod panel_script;
pub mod panel_trials;
