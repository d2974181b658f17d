//! What counts of random notes, by rows that the plain program of the second form wrote (share/tests/fate_rows.py 77 12,
//! share/tests/admission_rows.py 77 12).
mod admissions;
mod driven;
mod fates;
mod looked_at;
#[path = "../note_rows.rs"]
mod note_rows;
mod reading;
