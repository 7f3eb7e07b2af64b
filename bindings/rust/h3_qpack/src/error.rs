//! The errors of this crate as those of the standard library.

use crate::connection::{DecodingError, EncodingError, NoMemory, SettingsError};
use crate::{DecoderError, EncoderError, Error};

impl std::error::Error for NoMemory {}

impl std::error::Error for SettingsError {}

impl std::error::Error for EncodingError {}

impl std::error::Error for DecodingError {}

impl std::error::Error for EncoderError {}

impl std::error::Error for DecoderError {}

impl std::error::Error for Error {}
