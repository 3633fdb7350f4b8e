//! The bench console, over any build of the rules. docs/CONSOLE.md has its language.
//!
//! A build ([`Build`]) has one method for each call. The console lends it its own RAM ([`desk`]), reads a line
//! ([`line`]), makes its call and prints what that answered ([`answer`]). [`Both`] makes every call with two builds and
//! compares them; [`histories`] writes random histories.

pub mod answer;
pub mod both;
pub mod build;
mod call;
pub mod desk;
pub mod dice;
pub mod explain;
pub mod help;
pub mod hint;
pub mod histories;
pub mod line;
pub mod play;
pub mod show;
pub mod waveform;

pub use both::Both;
pub use build::Build;
