//! The path calls.

call!(path_read = burgee_path_read(bytes text, buffer out));
call!(path_write = burgee_path_write(bytes bytes, buffer out));
