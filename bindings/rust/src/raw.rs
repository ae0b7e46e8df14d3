//! The exported functions, as `norbelath.h` has them.

// A slice is a pointer and its length in elements. The library asks nothing else of its callers than what references
// give: the memory is there, and what is lent to be written overlaps nothing.
extern "C" {
    pub fn norbelath_form(
        text: *const u8,
        text_len: usize,
        out: *mut u8,
        out_len: usize,
        first: *mut u64,
        second: *mut u64,
    ) -> u8;
    pub fn norbelath_cut(
        text: *const u8,
        text_len: usize,
        cut: u64,
        out: *mut u8,
        out_len: usize,
        first: *mut u64,
        second: *mut u64,
    ) -> u8;
    pub fn norbelath_pair(
        text: *const u8,
        text_len: usize,
        other: *const u8,
        other_len: usize,
        first: *mut u64,
        second: *mut u64,
    ) -> u8;
    pub fn norbelath_table(
        text: *const u8,
        text_len: usize,
        texts: *mut u8,
        texts_len: usize,
        ends: *mut u32,
        ends_len: usize,
        first: *mut u64,
        second: *mut u64,
    ) -> u8;
    pub fn norbelath_graph(
        text: *const u8,
        text_len: usize,
        pairs: *mut u16,
        pairs_len: usize,
        counts: *mut u16,
        counts_len: usize,
        firsts: *mut u16,
        firsts_len: usize,
        first: *mut u64,
        second: *mut u64,
    ) -> u8;
    pub fn norbelath_graph_choosing(
        text: *const u8,
        text_len: usize,
        choice: u8,
        pairs: *mut u16,
        pairs_len: usize,
        counts: *mut u16,
        counts_len: usize,
        firsts: *mut u16,
        firsts_len: usize,
        first: *mut u64,
        second: *mut u64,
    ) -> u8;
    pub fn norbelath_interchanges(
        text: *const u8,
        text_len: usize,
        pairs: *mut u16,
        pairs_len: usize,
        counts: *mut u16,
        counts_len: usize,
        first: *mut u64,
        second: *mut u64,
    ) -> u8;
    pub fn norbelath_islands(
        text: *const u8,
        text_len: usize,
        pairs: *mut u16,
        pairs_len: usize,
        counts: *mut u16,
        counts_len: usize,
        firsts: *mut u16,
        firsts_len: usize,
        islands: *mut u16,
        islands_len: usize,
        first: *mut u64,
        second: *mut u64,
    ) -> u8;
    pub fn norbelath_support(
        text: *const u8,
        text_len: usize,
        clades: *mut u64,
        clades_len: usize,
        trees: *mut u16,
        trees_len: usize,
        out: *mut u8,
        out_len: usize,
        first: *mut u64,
        second: *mut u64,
        third: *mut u64,
    ) -> u8;
    pub fn norbelath_row(
        text: *const u8,
        text_len: usize,
        row: *mut u64,
        row_len: usize,
        first: *mut u64,
        second: *mut u64,
    ) -> u8;
    pub fn norbelath_row_text(
        row: *const u64,
        row_len: usize,
        out: *mut u8,
        out_len: usize,
        first: *mut u64,
        second: *mut u64,
    ) -> u8;
    pub fn norbelath_row_pair(
        row: *const u64,
        row_len: usize,
        other: *const u64,
        other_len: usize,
        first: *mut u64,
        second: *mut u64,
    ) -> u8;
    pub fn norbelath_plot(
        text: *const u8,
        text_len: usize,
        rows: *mut f64,
        rows_len: usize,
        columns: *mut u16,
        columns_len: usize,
        first: *mut u64,
        second: *mut u64,
    ) -> u8;
    pub fn norbelath_index_add(
        memory: *mut u8,
        memory_len: usize,
        text: *const u8,
        text_len: usize,
        first: *mut u64,
        second: *mut u64,
    ) -> u8;
    pub fn norbelath_index_neighbours(
        memory: *const u8,
        memory_len: usize,
        number: usize,
        list: *mut u16,
        list_len: usize,
        first: *mut u64,
        second: *mut u64,
    ) -> u8;
    pub fn norbelath_index_remove(
        memory: *mut u8,
        memory_len: usize,
        number: usize,
        first: *mut u64,
        second: *mut u64,
    ) -> u8;
    pub fn norbelath_sheet(
        text: *const u8,
        text_len: usize,
        out: *mut u8,
        out_len: usize,
        first: *mut u64,
        second: *mut u64,
    ) -> u8;
}
