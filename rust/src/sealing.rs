//! Sealing and opening a single text.

use crate::{raw, Refusal, Suite};

/// Seals a text under a suite, a key and a nonce, and a header along with it, which is not hidden. Returns
/// the ciphertext, which is as long as the text, and behind it the tag of 16 bytes.
///
/// A nonce has n = 1 to 15 bytes. It must never be used twice under one key, and all nonces under one key
/// must have the same length. The units of a book are sealed with nonces of 12 bytes, its number first: a
/// key that is used for books is best used for nothing else. The header may have min(2^(130 − 8n), 2^24)
/// bytes, the text min(2^(131 − 8n), 2^24): [`raw::header_max`] and [`raw::text_max`].
///
/// # The text's length
///
/// The text's length is not sealed along: without the key, who knows some of a text (16 bytes can be enough) can
/// make sealed bytes of a shorter one from it, which [`open`] accepts; docs/SECURITY.md in the repository says
/// when. Put the text's length into the header, in a fixed number of bytes, and on opening the length of what has
/// come (`sealed.len() - 16`): then these are refused.
///
/// # Errors
///
/// The first of these that applies: [`Refusal::NonceLength`], [`Refusal::HeaderTooLong`],
/// [`Refusal::TextTooLong`].
///
/// ```
/// use sealed_book::{open, seal, Refusal, Suite};
///
/// # fn main() -> Result<(), Refusal> {
/// # let (key, nonce) = ([7; 16], [1; 12]);
/// let suite = Suite::ISCREAM_12;
/// let mut sealed = seal(suite, &key, &nonce, b"manual 7", b"Hold the button down.")?;
/// assert_eq!(open(suite, &key, &nonce, b"manual 7", &sealed)?, b"Hold the button down.");
/// sealed[4] ^= 1;
/// assert_eq!(open(suite, &key, &nonce, b"manual 7", &sealed), Err(Refusal::TagDiffers));
/// # Ok(())
/// # }
/// ```
pub fn seal(
    suite: Suite,
    key: &[u8; 16],
    nonce: &[u8],
    header: &[u8],
    text: &[u8],
) -> Result<Vec<u8>, Refusal> {
    let [cipher, steps] = suite.to_bytes();
    let mut out = vec![0; text.len() + raw::TAG_LEN];
    raw::seal(cipher, steps, key, nonce, header, text, &mut out)?;
    Ok(out)
}

/// Opens what [`seal`] has sealed under the same suite, key, nonce and header, and returns the text.
/// Nothing of it is handed out before the tag was compared in full. [`seal`] says what to put into the header
/// so that a text that was made shorter on the way is refused.
///
/// # Errors
///
/// The first of these that applies: [`Refusal::NonceLength`], [`Refusal::HeaderTooLong`],
/// [`Refusal::SealedTooShort`], [`Refusal::TextTooLong`], [`Refusal::TagDiffers`].
pub fn open(
    suite: Suite,
    key: &[u8; 16],
    nonce: &[u8],
    header: &[u8],
    sealed: &[u8],
) -> Result<Vec<u8>, Refusal> {
    let [cipher, steps] = suite.to_bytes();
    let mut out = vec![0; sealed.len().saturating_sub(raw::TAG_LEN)];
    raw::open(cipher, steps, key, nonce, header, sealed, &mut out)?;
    Ok(out)
}
