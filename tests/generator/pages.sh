#!/bin/sh
# Makes target/pages_archive/libpages_c.a, through which the tests see `pages::table`.
exec sh "$(dirname "$0")/archive.sh" target/pages_archive pages_c pages <<'END'
// The pages of a table, as much of them as there is room for; how many bytes are used.
#![tactic(auto)]

#[unsafe(no_mangle)]
pub extern "C" fn sidumza_pages(table: &[u16], out: &mut [u8]) -> usize {
    pages::table(out, table)
}
END
