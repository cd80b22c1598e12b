//! The calls on a table alone.

call!(table_check = burgee_table_check(bytes table));
call!(group_count = burgee_group_count(bytes table, bytes user));
