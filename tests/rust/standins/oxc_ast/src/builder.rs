use oxc_allocator::{Allocator, GetAllocator};

#[derive(Clone, Copy)]
pub struct AstBuilder<'a> {
    pub allocator: &'a Allocator,
}

impl<'a> GetAllocator<'a> for AstBuilder<'a> {
    fn allocator(&self) -> &'a Allocator {
        self.allocator
    }
}
