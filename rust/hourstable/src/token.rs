//! Fencing tokens, and the check that a store makes.
use std::fmt;

use hourstable_sys as sys;
use sys::hs_token;

use crate::refused::{done, Refused};
use crate::Slicelet;

/// A fencing token, which a task sends to a store with each write of a key: the epoch of the job, the greatest
/// generation of the held leases that cover the key, and the life of the task. A store keeps the greatest token of the
/// key, and refuses a write with a lower one. The order of the bytes is that of the tokens, and so is that of their
/// texts, which are hexadecimal.
#[derive(Clone, Copy, Debug, Default, PartialEq, Eq, PartialOrd, Ord, Hash)]
pub struct Token(pub [u8; 16]);

impl Token {
    /// The token of an epoch, a generation and a life.
    pub fn new(epoch: u32, generation: u64, life: u32) -> Token {
        let parts = u128::from(epoch) << 96 | u128::from(generation) << 32 | u128::from(life);
        Token(parts.to_be_bytes())
    }

    /// The token of a text in hexadecimal, 32 digits; `None` if it is none.
    pub fn parse(text: &str) -> Option<Token> {
        let is_hex = text.len() == 32 && text.bytes().all(|it| it.is_ascii_hexdigit());
        let parts = u128::from_str_radix(text, 16).ok().filter(|_| is_hex)?;
        Some(Token(parts.to_be_bytes()))
    }
}

impl fmt::Display for Token {
    fn fmt(&self, out: &mut fmt::Formatter<'_>) -> fmt::Result {
        self.0.iter().try_for_each(|byte| write!(out, "{byte:02x}"))
    }
}

/// What a store keeps for one key: the greatest token with which it accepted a write. It is kept with what was written,
/// in one transaction. The default is that of a key before its first write.
#[derive(Clone, Copy, Debug, Default, PartialEq, Eq)]
pub struct Fence {
    pub greatest: Token,
}

impl Fence {
    /// Offers a write with a token, and returns whether it is accepted: then the token is the greatest. A new owner offers
    /// its token before it reads: until then a late write of an earlier owner may be accepted.
    pub fn accept(&mut self, token: Token) -> bool {
        let (mut greatest, token) =
            (hs_token { bytes: self.greatest.0 }, hs_token { bytes: token.0 });
        let is_accepted = unsafe { sys::hs_fence_accept(&mut greatest, &token) } == sys::HS_DONE;
        self.greatest = Token(greatest.bytes);
        is_accepted
    }
}

impl Slicelet {
    /// The token that the task has for a key. `most` is the most owners of a slice by the policy of the job, and `epoch` a
    /// number above those of the jobs before it that wrote to the same store. `MANY_OWNERS` if `most` is above 1, then the
    /// codes of `serve`.
    pub fn token(&self, most: u64, epoch: u32, key: &[u8], at: u64) -> Result<Token, Refused> {
        let (place, mut out) = (self.0.read(), hs_token::default());
        let (first, length) = (key.as_ptr(), key.len());
        done(unsafe { sys::hs_slicelet_token(place, most, epoch, first, length, at, &mut out) })?;
        Ok(Token(out.bytes))
    }

    /// `token` by slice key, without the hash of the key. `WRONG_FORM` if no key has this slice key.
    pub fn token_at(
        &self,
        most: u64,
        epoch: u32,
        slice_key: u64,
        at: u64,
    ) -> Result<Token, Refused> {
        let (place, mut out) = (self.0.read(), hs_token::default());
        done(unsafe { sys::hs_slicelet_token_at(place, most, epoch, slice_key, at, &mut out) })?;
        Ok(Token(out.bytes))
    }
}
