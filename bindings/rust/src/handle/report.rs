//! Reports of checks.

use std::mem::MaybeUninit;

use super::{optional, Handle};
use crate::check::{CheckOptions, Finding, FindingPosition, Severity};
use crate::errors::Result;
use crate::ffi;

/// What a check found.
pub(crate) struct ReportHandle(Handle);

impl ReportHandle {
    pub fn of(bytes: &[u8], options: &CheckOptions<'_>) -> Result<ReportHandle> {
        let (has_text, at, length) = optional(options.generated);
        let name = options.name.unwrap_or_default();
        let files = options.files.unwrap_or_default().iter();
        let texts: Vec<ffi::Text> = files.map(text_of_file).collect();
        // SAFETY: all are where they say.
        let report = Handle::fill(|report, error| unsafe {
            ffi::sm_check_files(
                report,
                bytes.as_ptr(),
                bytes.len(),
                has_text,
                at,
                length,
                name.as_ptr(),
                name.len(),
                options.files.is_some(),
                texts.as_ptr(),
                texts.len(),
                options.most,
                error,
            )
        })?;
        Ok(ReportHandle(report))
    }

    pub fn counts(&self) -> ffi::ReportCounts {
        let mut counts = ffi::ReportCounts::default();
        // SAFETY: it is a handle. It holds a report, so the call writes the counts.
        unsafe { ffi::sm_report_count(self.0.at(), &mut counts) };
        counts
    }

    /// The findings, each copied out of the report.
    pub fn findings(&self) -> Vec<Finding> {
        (0..).map_while(|index| self.finding(index)).collect()
    }

    fn finding(&self, index: u32) -> Option<Finding> {
        // The bytes between fields are to be zeros too.
        let mut found = MaybeUninit::<ffi::Finding>::zeroed();
        // SAFETY: it is a handle, and the finding is where it says.
        let code = unsafe { ffi::sm_report_finding(self.0.at(), index, found.as_mut_ptr()) };
        // SAFETY: zeros are a value of the struct, and so is what the call wrote.
        let found = unsafe { found.assume_init() };
        (code == ffi::SM_OK).then(|| Finding {
            code: found.code,
            severity: severity_of(&found),
            sections: self.sections(index),
            key: self.text(index, ffi::sm_report_key),
            position: position_of(&found),
            sentence: self.text(index, ffi::sm_report_sentence),
        })
    }

    fn sections(&self, index: u32) -> Vec<usize> {
        // what is wrong mostly stands a few sections deep
        let mut sections = vec![0; 8];
        loop {
            let mut count = 0;
            // SAFETY: it is a handle, and the sections are where they say.
            unsafe {
                ffi::sm_report_sections(
                    self.0.at(),
                    index,
                    sections.as_mut_ptr(),
                    sections.len(),
                    &mut count,
                )
            };
            let fits = count <= sections.len();
            sections.resize(count, 0);
            if fits {
                return sections;
            }
        }
    }

    fn text(
        &self,
        index: u32,
        ask: unsafe extern "C" fn(*mut ffi::Handle, u32, *mut ffi::Text) -> ffi::Code,
    ) -> String {
        // SAFETY: the text is in the report, which does not change while it is borrowed.
        unsafe { self.0.text(|report, text| ask(report, index, text)) }
            .unwrap_or_default()
            .to_owned()
    }
}

/// A file as a call takes it. What is not UTF-8 is none.
fn text_of_file(file: &Option<Vec<u8>>) -> ffi::Text {
    ffi::Text::of(file.as_deref().unwrap_or(b"\xff"))
}

fn severity_of(found: &ffi::Finding) -> Severity {
    match found.severity {
        ffi::SM_INVALID => Severity::Invalid,
        _ => Severity::Suspicious,
    }
}

fn position_of(found: &ffi::Finding) -> Option<FindingPosition> {
    match found.place {
        ffi::SM_PLACE_SEGMENT => Some(FindingPosition::Segment {
            line: found.line,
            index: found.index,
        }),
        ffi::SM_PLACE_TOKEN => Some(FindingPosition::Token {
            line: found.line,
            column: found.index,
        }),
        ffi::SM_PLACE_SHIFT => Some(FindingPosition::Shift {
            lines: found.lines,
            columns: found.columns,
        }),
        _ => None,
    }
}
