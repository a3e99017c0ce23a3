//! Stands in for the original `Pager`, which leans on files, locks and a log. The chain functions ask it for a page and hand it a page; a page
//! that was staged shadows the one that was there, as in the original.

use super::page::PAGE_SIZE;
use std::collections::HashMap;

#[derive(Default)]
pub struct Pager {
    pages: HashMap<u32, Box<[u8; PAGE_SIZE]>>,
}

impl Pager {
    pub fn read_page(&self, page_num: u32) -> Option<&[u8; PAGE_SIZE]> {
        self.pages.get(&page_num).map(|page| page.as_ref())
    }

    pub fn stage_page(&mut self, page_num: u32, bytes: [u8; PAGE_SIZE]) {
        self.pages.insert(page_num, Box::new(bytes));
    }
}
