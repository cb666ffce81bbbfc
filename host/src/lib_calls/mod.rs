//! The calls of the static library: linked where it was compiled for this machine, else through a pipe.

#[cfg(far)]
mod far;
#[cfg(far)]
pub use far::*;

#[cfg(not(far))]
mod linked;
#[cfg(not(far))]
pub use linked::*;

/// Does the library run under an emulator, so that its times say nothing?
pub const EMULATED: bool = cfg!(far);
