//! Each law can be called, without effect.

fn laws_of_constants() {
    rows_constants_extra::laws::orders_are_of_numbers();
    rows_constants_extra::laws::numbers_are_distinct();
    rows_constants_extra::laws::transaction_numbers();
    rows_constants_extra::laws::worked_numbers();
}

fn laws_of_values() {
    mysql_binlog_rows::laws::equal_values_are_the_same();
    mysql_binlog_rows::laws::equal_columns_and_times_are_the_same();
    mysql_binlog_rows::laws::equal_rows_are_the_same();
    mysql_binlog_rows::laws::worked_time_values();
    mysql_binlog_rows::laws::worked_bits();
}

fn laws_of_times() {
    mysql_binlog_rows::laws::times_by_cases();
    mysql_binlog_rows::laws::packed_fields_are_read_back();
    mysql_binlog_rows::laws::worked_time();
}

fn laws_of_decimals() {
    mysql_binlog_rows::laws::numbers_in_order();
    mysql_binlog_rows::laws::packed_bytes_are_uniquely_read();
    mysql_binlog_rows::laws::packed_bytes_are_unpacked();
    mysql_binlog_rows::laws::packed_bytes_are_read_back();
    mysql_binlog_rows::laws::named_numbers();
    mysql_binlog_rows::laws::only_zero_groups_are_dropped();
    mysql_binlog_rows::laws::texts_are_parsed_back();
    mysql_binlog_rows::laws::worked_decimals();
    mysql_binlog_rows::laws::worked_unpacking();
}

fn laws_of_documents_and_metadata() {
    mysql_binlog_rows::laws::diffs_are_read();
    mysql_binlog_rows::laws::lists_of_diffs_are_read();
    mysql_binlog_rows::laws::worked_objects();
    mysql_binlog_rows::laws::worked_pointer();
    mysql_binlog_rows::laws::worked_budget();
    mysql_binlog_rows::laws::worked_depth();
    mysql_binlog_rows::laws::entries_are_read();
    mysql_binlog_rows::laws::lists_are_read();
}

fn laws_of_rows() {
    mysql_binlog_rows::laws::cells_are_read();
    mysql_binlog_rows::laws::no_cell_is_prefix_of_another();
    mysql_binlog_rows::laws::kept_values_are_those_of_cells();
    mysql_binlog_rows::laws::images_are_read();
    mysql_binlog_rows::laws::no_image_is_prefix_of_another();
    mysql_binlog_rows::laws::rows_are_read();
    mysql_binlog_rows::laws::lists_of_rows_are_read();
    mysql_binlog_rows::laws::events_are_written_whole();
    mysql_binlog_rows::laws::equal_events_say_the_same();
}

#[test]
fn laws(_rt: HostRuntime) {
    laws_of_constants();
    laws_of_values();
    laws_of_times();
    laws_of_decimals();
    laws_of_documents_and_metadata();
    laws_of_rows();
}
