//! Stand-in: the original's file is not part of what is compared. The trait has the two functions that tree/mod.rs calls.
use crate::error::Result;
use crate::parser::parameters::Parameters;
use crate::parser::response::ResponseUnit;
use crate::Context;

pub enum CommandTypeMeta {
    Unknown,
}

pub trait Command<D> {
    fn event(&self, device: &mut D, context: &mut Context, params: Parameters) -> Result<()>;
    fn query(
        &self,
        device: &mut D,
        context: &mut Context,
        params: Parameters,
        response: ResponseUnit,
    ) -> Result<()>;
}
