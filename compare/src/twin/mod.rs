//! An implementation of docs/*.md and include/fotsgari.h, which shares nothing with the libraries.

pub mod bench;
pub mod calls;
pub mod certificates;
pub mod hash_set;
pub mod life;
pub mod picks;
pub mod record;
pub mod register;
pub mod requests;
pub mod service;
pub mod views;
pub mod votes;

/// A ground and a place.
#[derive(Clone, Copy, Debug, PartialEq, Eq)]
pub struct Refusal {
    pub ground: u8,
    pub place: u64,
}

/// A refusal on a ground, at place 0.
pub fn refused<T>(ground: u8) -> Result<T, Refusal> {
    refused_at(ground, 0)
}

/// A refusal on a ground, at a place.
pub fn refused_at<T>(ground: u8, place: usize) -> Result<T, Refusal> {
    Err(Refusal { ground, place: place as u64 })
}

/// A refusal where a ground is met, else a grant.
pub fn refuse_if(met: bool, ground: u8) -> Result<(), Refusal> {
    if met { refused(ground) } else { Ok(()) }
}
