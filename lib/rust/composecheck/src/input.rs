//! Values in the form in which C takes them.
use crate::Error;
use composecheck_sys as sys;
use std::ffi::CString;
use std::os::raw::c_void;
use std::ptr;

/// The sources of a table, and what goes with them, held while a call reads them.
pub(crate) struct Input<'a> {
    names: Vec<CString>,
    bytes: Vec<&'a [u8]>,
    certificate: &'a [u8],
    repertoire: &'a [u8],
}

impl<'a> Input<'a> {
    pub(crate) fn new(sources: &[(&str, &'a [u8])]) -> Result<Input<'a>, Error> {
        let names = sources.iter().map(|(name, _)| CString::new(*name)).collect::<Result<_, _>>()?;
        Ok(Input { names, bytes: sources.iter().map(|(_, bytes)| *bytes).collect(), certificate: &[], repertoire: &[] })
    }

    pub(crate) fn with(self, certificate: &'a [u8], repertoire: &'a [u8]) -> Input<'a> {
        Input { certificate, repertoire, ..self }
    }

    /// What `call` returns for the struct of C, whose pointers hold while it runs.
    pub(crate) fn lend<T>(&self, call: impl FnOnce(&sys::composecheck_input) -> T) -> T {
        let rows = self.names.iter().zip(&self.bytes);
        let sources: Vec<_> = rows.map(|(name, it)| sys::composecheck_source { name: name.as_ptr(), bytes: start(it), length: it.len() }).collect();
        call(&sys::composecheck_input {
            header: ptr::null(),
            header_length: 0,
            sources: sources.as_ptr(),
            source_count: sources.len(),
            certificate: start(self.certificate),
            certificate_length: self.certificate.len(),
            repertoire: start(self.repertoire),
            repertoire_length: self.repertoire.len(),
            longest: true,
            bundle: ptr::null(),
            bundle_length: 0,
            reserved: [ptr::null_mut(); 2],
        })
    }

    /// The sentence that says why these sources are refused.
    pub(crate) fn sentence(&self) -> String {
        self.lend(|input| {
            // SAFETY: the input's pointers hold, and a room of 0 bytes is none.
            let length = unsafe { sys::composecheck_table_explain(input, ptr::null_mut(), 0) };
            let mut text = vec![0u8; length + 1];
            // SAFETY: as above, and the text has the room.
            unsafe { sys::composecheck_table_explain(input, text.as_mut_ptr().cast(), text.len()) };
            text.truncate(length);
            String::from_utf8_lossy(&text).into_owned()
        })
    }
}

fn start(bytes: &[u8]) -> *const c_void {
    bytes.as_ptr().cast()
}
