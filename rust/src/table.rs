// The exported calls, in the header's order: `girvotal_NAME`, and after what stands here every one
// takes its answer. Of each entry `exported.rs` makes the declaration and the function, `build.rs`
// the name that the archive must have, and a test compares it with the header.

calls! {
    /// Asks a catalogue questions 1 to 9: bytes of the store, of the work space, of a
    /// list, and the most that write gives.
    check(catalogue: &[u8]);

    /// Classifies the catalogue's axioms into the store: pairs, links, 0, 0.
    classify(catalogue: &[u8], store: &mut [u8], work: &mut [u8]);

    /// Withdraws the axioms of one list and adds those of the other: removed, returned,
    /// gained, and the count of concepts listed.
    change(catalogue: &[u8], withdrawn: &[u8], added: &[u8], store: &mut [u8], work: &mut [u8],
        list: &mut [u8]);

    /// Looks up a pair: 1 for yes or 0 for no, 0, 0, 0.
    lookup(catalogue: &[u8], first: usize, second: usize, store: &[u8]);

    /// Lists the atomic concepts under one: count, 0, 0, 0.
    list(catalogue: &[u8], second: usize, store: &[u8], list: &mut [u8]);

    /// Where a concept's pair row stands: its offset in the store, its width, 0, 0.
    row(catalogue: &[u8], concept_number: usize, store: &[u8]);

    /// Writes the catalogue with the axioms in force: length, 0, 0, 0.
    write(catalogue: &[u8], store: &[u8], output: &mut [u8]);
}
