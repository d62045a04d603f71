//! The plain implementation as the settings program, for the harness's test of itself.

fn main() -> std::io::Result<()> {
    harness::processes::be(harness::plain::programs::settings)
}
