//! What is not accepted, as errors.

use core::error::Error;

use crate::{Answer, BlockRefusal, ChoiceRefusal, RawRefusal, SettingsRefusal, SubmitRefusal};

impl Error for Answer {}
impl Error for BlockRefusal {}
impl Error for ChoiceRefusal {}
impl Error for RawRefusal {}
impl Error for SettingsRefusal {}
impl Error for SubmitRefusal {}
