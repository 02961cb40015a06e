//! Stand-in for src/block.rs, which document 01 leaves out: a frame that nobody can make.
use ratatui_core::buffer::Buffer;
use ratatui_core::layout::Rect;
use ratatui_core::widgets::Widget;

#[derive(Clone, Debug, PartialEq)]
pub enum Block<'a> {
    Never(core::convert::Infallible, &'a ()),
}

impl<'a> Widget for &Block<'a> {
    fn render(self, _whole: Rect, _buffer: &mut Buffer) {}
}

pub trait BlockExt {
    fn inner_if_some(&self, whole: Rect) -> Rect;
}

impl<'a> BlockExt for Option<Block<'a>> {
    /// `Canvas::render` without `Block`: the whole area is the canvas's.
    fn inner_if_some(&self, whole: Rect) -> Rect {
        whole
    }
}
