//! Path text and path bytes: the speed of the two implementations.

use std::hint::black_box;

use burgee_rust::boundary::path::{path_read, path_write};
use burgee_rust::generate::path::longest_path;
use burgee_rust::limits;
use burgee_rust::measure::Table;
use burgee_rust::path::{path_bytes, read_path_text, write_path_text};
use burgee_rust::word;

fn main() {
    let texts = [
        ("root", b"/".to_vec()),
        ("2 elements", b"/interfaces/interface".to_vec()),
        ("4 elements, 1 key", b"/interfaces/interface[name=et-1/0/1]/state/counters".to_vec()),
        (
            "4 elements, 3 keys",
            b"/network-instances/network-instance[name=DEFAULT]/protocols/protocol[identifier=BGP][name=BGP]".to_vec(),
        ),
        ("longest path", longest_path().text()),
    ];

    let table = Table::new("Path text to path bytes");
    for (name, text) in &texts {
        let (mut proved, mut written) = ([0; limits::PATH_BYTES], [0; limits::PATH_BYTES]);
        table.row(
            &format!("{name}, {} bytes", text.len()),
            || path_read(black_box(text), &mut proved),
            || word::filled(read_path_text(black_box(text), &mut written)),
        );
    }

    let table = Table::new("Path bytes to path text");
    for (name, text) in &texts {
        let bytes = path_bytes(text).expect("a good path");
        let (mut proved, mut written) = ([0; limits::PATH_TEXT], [0; limits::PATH_TEXT]);
        table.row(
            &format!("{name}, {} bytes", bytes.len()),
            || path_write(black_box(&bytes), &mut proved),
            || word::filled(write_path_text(black_box(&bytes), &mut written)),
        );
    }
}
