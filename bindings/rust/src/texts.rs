//! Texts and images, as bytes.

use crate::error::{done, Error, Result};
use crate::raw;

/// What one of these calls makes, in as much room as it wants; or the status and the place of a fault.
fn made(from: &[u8], mut call: impl FnMut(*const u8, usize, *mut u8, usize, *mut u64) -> u32) -> std::result::Result<Vec<u8>, (u32, u64)> {
    const SHORT_BUFFER: u32 = 115;
    let mut into = vec![0; 1 << 16];
    loop {
        let mut told = 0;
        let status = call(from.as_ptr(), from.len(), into.as_mut_ptr(), into.len(), &mut told);
        match status {
            0 => {
                into.truncate(told as usize);
                return Ok(into);
            }
            SHORT_BUFFER => into.resize(told as usize, 0),
            _ => return Err((status, told)),
        }
    }
}

/// The error of a status, with its place.
fn fault(status: u32, bad: Error, refused: Error) -> Error {
    match status {
        112 => bad,
        113 => refused,
        _ => done(status).err().unwrap_or(Error::Other(status)),
    }
}

/// The image of an assembly text.
///
/// ```
/// use takhvoi::{assemble, Error, Kernel};
///
/// # fn main() -> takhvoi::Result<()> {
/// let image = assemble("routine double public budget 2\n ADD w0 w0 w0\n RET\n")?;
/// let kernel = Kernel::in_memory(Default::default())?;
/// let image = kernel.load(&image)?;
/// let double = kernel.routine(&image, "double")?;
/// let outcome = kernel.run(double, [21, 0, 0, 0, 0, 0, 0, 0], [None; 4], &mut [])?;
/// assert_eq!((outcome.words[0], outcome.steps), (42, 2));
/// assert_eq!(assemble("routine f public budget x\n"), Err(Error::BadText { line: 1 }));
/// # Ok(())
/// # }
/// ```
pub fn assemble(text: impl AsRef<[u8]>) -> Result<Vec<u8>> {
    made(text.as_ref(), |text, len, into, room, told| unsafe { raw::takhvoi_assemble(text, len, into, room, told) })
        .map_err(|(status, line)| fault(status, Error::BadText { line }, Error::NoRows { line }))
}

/// The image of a source of the structured language.
///
/// ```
/// use takhvoi::{compile, Error, Kernel};
///
/// # fn main() -> takhvoi::Result<()> {
/// let image = compile("pub fn double(n) { out(n + n)?; }")?;
/// let kernel = Kernel::in_memory(Default::default())?;
/// let image = kernel.load(&image)?;
/// let double = kernel.routine(&image, "double")?;
/// let mut output = [0];
/// kernel.run(double, [21, 0, 0, 0, 0, 0, 0, 0], [None; 4], &mut output)?;
/// assert_eq!(output, [42]);
/// assert_eq!(compile("pub fn f() {\n    out(n)?;\n}\n"), Err(Error::BadText { line: 2 }));
/// # Ok(())
/// # }
/// ```
pub fn compile(source: impl AsRef<[u8]>) -> Result<Vec<u8>> {
    made(source.as_ref(), |source, len, into, room, told| unsafe { raw::takhvoi_compile(source, len, into, room, told) })
        .map_err(|(status, line)| fault(status, Error::BadText { line }, Error::Other(status)))
}

/// The listing of an image, an assembly text.
pub fn list(image: &[u8]) -> Result<Vec<u8>> {
    made(image, |image, len, into, room, told| unsafe { raw::takhvoi_list(image, len, into, room, told) })
        .map_err(|(status, offset)| fault(status, Error::BadImage { offset }, Error::Other(status)))
}

/// The listing of an image with what is known at each instruction, and where the verifier refuses it, why.
pub fn explain(image: &[u8]) -> Result<Vec<u8>> {
    made(image, |image, len, into, room, told| unsafe { raw::takhvoi_explain(image, len, into, room, told) })
        .map_err(|(status, offset)| fault(status, Error::BadImage { offset }, Error::Other(status)))
}

/// What there is to say of an assembly text.
#[derive(Clone, Debug, PartialEq, Eq)]
pub struct Explanation {
    /// Its lines with what is known at each instruction, and why the verifier refuses its image, if it does; or what is wrong with each faulty
    /// line; or why no rows are found.
    pub text: Vec<u8>,
    /// The line of the first thing that is wrong; `None` if the verifier accepts the image.
    pub line: Option<u64>,
    /// The column in that line, from 1; `None` if the whole line is meant.
    pub column: Option<u64>,
}

/// What there is to say of an assembly text, with the place of the first thing that is wrong.
///
/// ```
/// let said = takhvoi::explain_text("routine f public budget x\n")?;
/// assert_eq!(said.line, Some(1));
/// # Ok::<(), takhvoi::Error>(())
/// ```
pub fn explain_text(text: impl AsRef<[u8]>) -> Result<Explanation> {
    explained(text.as_ref(), raw::takhvoi_explain_text)
}

/// The first fault of a source of the structured language, with its place; an empty text if there is none.
///
/// ```
/// let said = takhvoi::explain_source("pub fn f() {\n    out(n)?;\n}\n")?;
/// assert_eq!((said.line, said.column), (Some(2), Some(9)));
/// # Ok::<(), takhvoi::Error>(())
/// ```
pub fn explain_source(source: impl AsRef<[u8]>) -> Result<Explanation> {
    explained(source.as_ref(), raw::takhvoi_explain_source)
}

/// A call of the library that explains a text.
type Explain = unsafe extern "C" fn(*const u8, usize, *mut u8, usize, *mut u64, *mut u64, *mut u64) -> u32;

/// What such a call says of a text.
fn explained(text: &[u8], call: Explain) -> Result<Explanation> {
    let (mut line, mut column) = (0, 0);
    let made = made(text, |text, len, into, room, told| unsafe { call(text, len, into, room, told, &mut line, &mut column) });
    let text = made.map_err(|(status, _)| fault(status, Error::Other(status), Error::Other(status)))?;
    Ok(Explanation { text, line: (line != 0).then_some(line), column: (column != 0).then_some(column) })
}
