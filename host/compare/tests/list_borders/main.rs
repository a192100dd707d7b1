//! A list of trains (02, A5) at its borders: empty lists, lists that are refused, levels and what lies beyond them, long lists,
//! recovery in one call, and lists beside single trains. Numbers are worked out by hand or from the counts alone.

mod common;
mod empty;
mod long;
mod recovery;
mod refused;
mod sent;
mod singly;
