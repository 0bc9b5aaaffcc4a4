//! A second implementation of document 01, of requests C-11, C-12, C-14, C-15 and C-16 and of the check of filed
//! sheets, written from their texts and the public pages on Netpbm files alone, and what the tests need to hold the
//! static library and the program `settle` against it.

pub mod fault;
pub mod filed;
pub mod generate;
pub mod handed;
pub mod library;
pub mod patterns;
pub mod pfm;
pub mod picture;
pub mod plain;
pub mod sheet;
pub mod vector;
