//! What is measured: the images and lines, the rows that they make, the two sides, and the limits beside them.

pub mod images;
pub mod jpeg_rows;
pub mod jpegs;
pub mod limits;
pub mod plain;
pub mod plain_sheet;
pub mod rows;
pub mod sheet_rows;
pub mod sides;
pub mod table;
