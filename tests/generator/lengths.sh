#!/bin/sh
# Makes target/lengths/liblengths_c.a, through which the tests see `nonterminals::shortest`.
exec sh "$(dirname "$0")/archive.sh" target/lengths lengths_c nonterminals card card_checks <<'END'
// The number of a card's first fault of form; where it has none, 0 and the lengths.
#![tactic(auto)]

#[unsafe(no_mangle)]
pub extern "C" fn sidumza_shortest(card: &[u16], out: &mut [u16; 60]) -> u16 {
    if let Err(fault) = card::form_fault(card) {
        return card_checks::numbers(fault.into())[0];
    }
    *out = nonterminals::shortest(card);
    0
}
END
