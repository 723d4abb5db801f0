//! The second opinion against what the documents print, and against still plainer workings of the same.

mod documents;
mod libraries;
mod plainer;
mod refusals;
