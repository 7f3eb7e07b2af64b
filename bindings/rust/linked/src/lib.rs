//! A function for C that decodes by the crate.

use h3_qpack::connection::{ConnectionDecoder, DecoderSettings, Reading};

/// A section of two fields of the static table.
const SECTION: [u8; 4] = [0, 0, 0xd1, 0xd7];

/// Returns how many fields the crate decodes of a section, or -1 if it does not decode it.
#[no_mangle]
pub extern "C" fn count_in_rust() -> i32 {
    let settings = DecoderSettings::default().with_max_section_size(4096);
    let decoded = ConnectionDecoder::new(settings).map(|mut decoder| decoder.decode(0, &SECTION));
    match decoded {
        Ok(Ok(Reading::Fields { count, .. })) => count as i32,
        _ => -1,
    }
}
