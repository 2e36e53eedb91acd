//! S-NET and SALSAT air headers, power pages and the pass sheet; headers in recordings; BEESAT-1 frames.
//!
//! A second implementation of paper 01 and of requests a, b, d to i, m and n of paper 02, written from the
//! papers alone, so that two programs that share no thought can be compared line by line. It prefers the
//! plain way over the quick one: words are repaired by trying all 32 valid words, checksums run bit by bit.
//!
//! | module | part of the papers |
//! |---|---|
//! | [`refusal`] | "a refusal carries number and place only" |
//! | [`rules`] | how a frame is read: its edition, the limit on its flips |
//! | [`word`] | valid words, repair with its flip pattern |
//! | [`call_sign`] | the four call signs and their bits |
//! | [`air`] | 210 elements on air, fourteen words |
//! | [`crc`] | CRC13, and the bit-by-bit rule of every checksum |
//! | [`header`] | fields, CRC5, header read (20, 1 to 6, 21, 23, 24) and written (13 to 15), the worst word |
//! | [`frame`] | header and payload together (7, 8) |
//! | [`page`] | payload header, power page read (9 to 12) and written (18) |
//! | [`shown`] | the shown value, with its third term (16) |
//! | [`sheet`] | the pass sheet (17, 22), what it counts, its lanes |
//! | [`listing`] | the listing |
//! | [`totals`] | the text of a pass sheet |
//! | [`pages`] | the listing of power pages |
//! | [`report`] | the report over all pages (30), its text |
//! | [`packing`] | records as lines of text, and back |
//! | [`catches`] | what CRC5 alone catches |
//! | [`window`], [`search`] | a header behind its marker (21, editions), headers in a recording (19, 37) |
//! | [`writing`] | one record written (14, 15), and cases to write |
//! | [`beesat`] | BEESAT-1 frames read (25 to 28), one field written (38, 29), their listing |
//!
//! [`pieces`] takes input as it comes. The rest makes material to compare with: [`rng`], [`sample`], [`season`], [`rows`],
//! [`recording`], [`example`], [`vectors`].

pub mod air;
pub mod beesat;
pub mod call_sign;
pub mod catches;
pub mod crc;
pub mod example;
pub mod frame;
pub mod header;
pub mod listing;
pub mod packing;
pub mod page;
pub mod pages;
pub mod pieces;
pub mod recording;
pub mod refusal;
pub mod report;
pub mod rng;
pub mod rows;
pub mod rules;
pub mod sample;
pub mod search;
pub mod season;
pub mod sheet;
pub mod shown;
pub mod totals;
pub mod vectors;
pub mod window;
pub mod word;
pub mod writing;
