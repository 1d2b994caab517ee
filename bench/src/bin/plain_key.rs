//! The key program in plain Rust, of the same shape as the proved one: the same bytes in, the lines written through a buffer of the same size.

use bench::peers;

fn main() -> std::io::Result<()> {
    peers::write_lines(peers::by_key)
}
