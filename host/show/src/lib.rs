//! Plays a script and shows what it does: as text, as one page with a picture for each step, or as one picture.
//!
//! `play` makes the calls, `changes` and `words` say what they did, `scene` is what a picture has, `layout` where it
//! stands and `svg` how it looks; `text`, `page` and `strip` are the three outputs.

pub mod args;
pub mod changes;
pub mod layout;
pub mod page;
pub mod play;
pub mod scene;
pub mod strip;
pub mod svg;
pub mod text;
pub mod words;
