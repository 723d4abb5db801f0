//! The records of an SDF and the data items of a record.
use crate::functions as c;
use crate::reply::{fine, fine_or_done, Refusal};

/// The record of an SDF that begins at a byte, and where the next one begins; nothing where only blanks, tabs, CR and LF are left.
pub fn sdf_record(text: &[u8], from: usize) -> Option<(&[u8], usize)> {
    let mut span = [0; 3];
    let reply = unsafe { c::tteuyomal_sdf_record(text.as_ptr(), text.len(), from, span.as_mut_ptr(), span.len()) };
    let [start, length, next] = span.map(|one| one as usize);
    fine_or_done(reply, ()).ok()??;
    Some((&text[start..start + length], next))
}

/// All records of an SDF in order.
pub fn sdf_records(text: &[u8]) -> impl Iterator<Item = &[u8]> {
    let mut from = 0;
    std::iter::from_fn(move || {
        let (record, next) = sdf_record(text, from)?;
        from = next;
        Some(record)
    })
}

/// The value of the data item of a name.
pub fn sdf_item<'a>(record: &'a [u8], name: &[u8]) -> Result<&'a [u8], Refusal> {
    let mut span = [0; 2];
    let (list, len) = (record.as_ptr(), record.len());
    let reply = unsafe { c::tteuyomal_sdf_item(list, len, name.as_ptr(), name.len(), span.as_mut_ptr(), span.len()) };
    let [start, length] = span.map(|one| one as usize);
    fine(reply, ()).map(|()| &record[start..start + length])
}
