//! The program `pagetable` by the reference: a card from standard input, its
//! table's pages or its refusal to standard output.

fn main() -> std::io::Result<()> {
    reference::program::run(reference::pages::pages)
}
