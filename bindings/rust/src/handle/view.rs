//! Generated texts.

use super::lent_text;
use super::shared::Shared;
use crate::errors::Result;
use crate::ffi;

/// A text with the table of its lines.
pub(crate) struct ViewHandle(pub(super) Shared);

impl ViewHandle {
    pub fn open(text: &str) -> Result<ViewHandle> {
        // SAFETY: the text is where it says.
        Shared::fill(|view, error| unsafe {
            ffi::sm_view_open(view, text.as_ptr(), text.len(), error)
        })
        .map(ViewHandle)
    }

    /// Another value with the same text, without a copy.
    pub fn share(&self) -> Result<ViewHandle> {
        self.0.share().map(ViewHandle)
    }

    /// The text that a call points to in the view.
    ///
    /// # Safety
    ///
    /// If the call succeeds, it points to UTF-8 in the handle that it is given.
    unsafe fn text(
        &self,
        ask: impl FnOnce(*mut ffi::Handle, *mut ffi::Text) -> ffi::Code,
    ) -> Option<&str> {
        let view = self.0.take();
        // SAFETY: what this function asks of its caller. A view never changes.
        unsafe { lent_text(|text| ask(view.at(), text)) }
    }

    pub fn source(&self) -> &str {
        // SAFETY: the text is in the view.
        unsafe { self.text(|view, text| ffi::sm_view_text(view, text)) }.unwrap_or_default()
    }

    pub fn line_count(&self) -> usize {
        let mut lines = 0;
        // SAFETY: it is a handle. It holds a view, so the call writes the count.
        unsafe { ffi::sm_view_count(self.0.take().at(), &mut lines) };
        lines
    }

    pub fn line(&self, line: u32) -> Option<&str> {
        // SAFETY: the text is in the view.
        unsafe { self.text(|view, text| ffi::sm_view_line(view, line, text)) }
    }

    pub fn slice(&self, line: u32, column: u32, span: u32) -> Option<&str> {
        // SAFETY: the text is in the view.
        unsafe { self.text(|view, text| ffi::sm_view_slice(view, line, column, span, text)) }
    }
}
