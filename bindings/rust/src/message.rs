//! A message that a port wrote.

use core::ops::Deref;

/// A message to be sent: part of the lent buffer. It is its bytes by `Deref`, and dropping one unused draws a warning.
///
/// ```
/// #![deny(unused_must_use)]
/// fn owed(port: &mut srp_target::Port, buf: &mut [u8]) -> Result<(), srp_target::Refusal> {
///     let message = port.grant(buf)?;
///     assert_eq!(message.len(), 16);
///     Ok(())
/// }
/// ```
/// ```compile_fail
/// #![deny(unused_must_use)]
/// fn owed(port: &mut srp_target::Port, buf: &mut [u8]) -> Result<(), srp_target::Refusal> {
///     port.grant(buf)?;
///     Ok(())
/// }
/// ```
#[derive(Clone, Copy, Debug, PartialEq, Eq)]
#[must_use = "the message is to be sent"]
pub struct Message<'b>(
    /// Its bytes.
    pub &'b [u8],
);

impl Deref for Message<'_> {
    type Target = [u8];

    fn deref(&self) -> &[u8] {
        self.0
    }
}

impl<const N: usize> PartialEq<[u8; N]> for Message<'_> {
    fn eq(&self, bytes: &[u8; N]) -> bool {
        self.0 == bytes
    }
}
