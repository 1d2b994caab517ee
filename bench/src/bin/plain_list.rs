//! The list program in plain Rust, of the same shape as the proved one.

use bench::peers;

fn main() -> std::io::Result<()> {
    peers::write_lines(peers::by_list)
}
