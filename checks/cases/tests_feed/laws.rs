//! Each law of the text of values can be called, without effect.

#[test]
fn laws_of_texts(_rt: HostRuntime) {
    feed_text::laws::equal_quotes_are_of_equal_bytes();
    feed_text::laws::values_have_the_texts_of_cells();
    feed_text::laws::values_of_cells_have_their_texts();
    feed_text::laws::worked_quote();
    feed_text::laws::worked_times();
}
