use crate::types::{Class, CompletionCode};
use crate::{ffi, Refusal};

impl Class {
    /// The class of a byte.
    ///
    /// ```
    /// use lomvigast::trb::Class;
    /// assert_eq!(Class::of(30), Class::Reserved);
    /// assert_eq!(Class::of(192), Class::VendorError);
    /// ```
    #[inline]
    pub fn of(byte: u8) -> Self {
        ffi::class_of(byte)
    }
}

impl TryFrom<u8> for CompletionCode {
    type Error = Refusal;

    /// The code that a byte stands for.
    ///
    /// ```
    /// use lomvigast::{trb::CompletionCode, Refusal};
    /// assert_eq!(CompletionCode::try_from(13), Ok(CompletionCode::ShortPacket));
    /// assert_eq!(CompletionCode::try_from(30), Err(Refusal::Code));
    /// ```
    ///
    /// # Errors
    ///
    /// Refused with 12 where it is none of the 36.
    #[inline]
    fn try_from(byte: u8) -> Result<Self, Refusal> {
        let coded = ffi::code_of(byte);
        Refusal::check(coded.refusal, 0)?;
        Ok(coded.code)
    }
}

#[cfg(test)]
mod tests {
    use super::CompletionCode;

    #[test]
    fn each_code_is_found_by_its_number() {
        for code in CompletionCode::ALL {
            assert_eq!(CompletionCode::try_from(u8::from(code)), Ok(code));
        }
        let listed = (0..=255).filter(|&byte| CompletionCode::try_from(byte).is_ok());
        assert_eq!(listed.count(), 36);
    }
}
