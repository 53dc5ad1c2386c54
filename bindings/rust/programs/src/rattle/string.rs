//! Texts whose allocation may fail.
use ::intervallum::proved::ivl_map::MapValue;
use ::intervallum::rattle::alloc::{AllocError, Global};
use ::std::string::String as Inner;
use core::borrow::Borrow;
use core::ops::Deref;

/// A text that owns its bytes.
#[derive(Debug, PartialEq, Eq, PartialOrd, Ord, Hash)]
pub struct String(Inner);

impl String {
    /// Returns a copy of a text. Fails only if allocation fails.
    // the name that Rattle has
    #[allow(clippy::should_implement_trait)]
    pub fn from_str(_alloc: Global, text: &str) -> Result<String, AllocError> {
        let mut made = Inner::new();
        made.try_reserve_exact(text.len()).map_err(|_| AllocError)?;
        made.push_str(text);
        Ok(String(made))
    }

    /// Returns the text.
    pub fn as_str(&self) -> &str {
        &self.0
    }
}

impl Borrow<str> for String {
    fn borrow(&self) -> &str {
        &self.0
    }
}

impl Deref for String {
    type Target = str;

    fn deref(&self) -> &str {
        &self.0
    }
}

impl MapValue for String {
    fn try_copy(&self) -> Result<String, AllocError> {
        String::from_str(Global, &self.0)
    }
}
