//! The plain implementation as the values program, for the harness's test of itself.

fn main() -> std::io::Result<()> {
    harness::processes::be(harness::plain::programs::values)
}
