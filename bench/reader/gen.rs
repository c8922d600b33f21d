// Writes for each grammar FILE.txt: OUT/FILE.h (table and a long sentence as C arrays) and the same grammar for Bison:
// OUT/FILE.y, OUT/FILE_lac.y (with lookahead correction and detailed errors) and OUT/FILE_all.y (that gives all expected
// tokens). Usage: gen OUT FILE.txt...
#[path = "../../tests/reader/src/lalr.rs"]
mod lalr;
use lalr::Grammar;
use std::fmt::Write;

// One production on a line, `left : symbols`. The first left side is the start.
fn parse(text: &str) -> Grammar {
    let lines: Vec<Vec<&str>> = text.lines().map(|l| l.split_whitespace().collect()).collect();
    let mut names: Vec<&str> = Vec::new();
    let mut terminals: Vec<&str> = vec!["end"];
    for l in &lines {
        if !names.contains(&l[0]) {
            names.push(l[0]);
        }
    }
    for x in lines.iter().flat_map(|l| &l[2..]) {
        if !names.contains(x) && !terminals.contains(x) {
            terminals.push(x);
        }
    }
    let t = terminals.len();
    let number = |x: &&str| match names.iter().position(|n| n == x) {
        Some(i) => t + i,
        None => terminals.iter().position(|n| n == x).unwrap(),
    };
    Grammar {
        terminals: t,
        nonterminals: names.len(),
        left: lines.iter().map(|l| number(&l[0])).collect(),
        right: lines.iter().map(|l| l[2..].iter().map(number).collect()).collect(),
    }
}

struct Random(u64);

impl Random {
    fn below(&mut self, n: usize) -> usize {
        self.0 ^= self.0 << 13;
        self.0 ^= self.0 >> 7;
        self.0 ^= self.0 << 17;
        (self.0 >> 11) as usize % n
    }
}

// The least height of a tree for each symbol.
fn heights(g: &Grammar) -> Vec<usize> {
    let mut h: Vec<usize> = (0..g.terminals + g.nonterminals).map(|x| if x < g.terminals { 0 } else { 1000 }).collect();
    for _ in 0..g.nonterminals {
        for (&a, r) in g.left.iter().zip(&g.right) {
            h[a] = h[a].min(1 + r.iter().map(|&x| h[x]).max().unwrap_or(0));
        }
    }
    h
}

// Appends a random string that symbol x derives.
fn expand(g: &Grammar, h: &[usize], x: usize, depth: usize, r: &mut Random, out: &mut Vec<u8>) {
    if x < g.terminals {
        out.push(x as u8);
        return;
    }
    let all: Vec<&Vec<usize>> = g.left.iter().zip(&g.right).filter(|p| *p.0 == x).map(|p| p.1).collect();
    let tall = |p: &&&Vec<usize>| p.iter().map(|&x| h[x]).max().unwrap_or(0);
    let right = if depth == 0 { all.iter().min_by_key(tall).unwrap() } else { &all[r.below(all.len())] };
    for &y in right.iter() {
        expand(g, h, y, depth.saturating_sub(1), r, out);
    }
}

// A sentence of about n terminals: the start's list (productions 0 and 1) of random elements.
fn sentence(g: &Grammar, n: usize) -> Vec<u8> {
    let (h, mut r, mut out) = (heights(g), Random(88172645463325252), Vec::new());
    for &x in &g.right[1] {
        expand(g, &h, x, 20, &mut r, &mut out);
    }
    loop {
        let kept = out.len();
        for &x in &g.right[0][1..] {
            expand(g, &h, x, 20, &mut r, &mut out);
        }
        if out.len() > n {
            out.truncate(kept);
            return out;
        }
    }
}

// What a parser of Bison does about errors beyond telling that there is one.
#[derive(PartialEq)]
enum Errors {
    Plain,
    // Lookahead correction, and a message with what is expected, up to four tokens.
    Detailed,
    // Lookahead correction, and all expected tokens as bits of a word, those of the terminals' numbers.
    All,
}

fn errors(kind: &Errors, name: &str) -> String {
    match kind {
        Errors::Plain => String::new(),
        Errors::Detailed => "%define parse.lac full\n%define parse.error detailed\n".to_string(),
        Errors::All => format!(
            "%define parse.lac full\n%define parse.error custom\n%code {{\nstatic uint64_t expected;\n\
             uint64_t {name}_expected(void) {{ return expected; }}\n}}\n"
        ),
    }
}

// The function that Bison calls with `parse.error custom`: kinds 1 and 2 are no terminals, and those behind them are the
// terminals from 1 on.
const REPORT: &str = "static int yyreport_syntax_error(const yypcontext_t *context) {\n\
    yysymbol_kind_t kinds[YYNTOKENS];\n\
    int many = yypcontext_expected_tokens(context, kinds, YYNTOKENS);\n\
    expected = 0;\n\
    for (int i = 0; i < many; i++)\n\
    expected |= (uint64_t)1 << (kinds[i] == 0 ? 0 : kinds[i] - 2);\n\
    return 0;\n}\n";

fn bison(g: &Grammar, name: &str, kind: Errors) -> String {
    let symbol = |x: usize| {
        if x < g.terminals {
            format!("T{x}")
        } else {
            format!("n{x}")
        }
    };
    let mut s = format!(
        "%define api.prefix {{{name}_}}\n%code {{\n#include <stddef.h>\n#include <stdint.h>\n\
         static const uint8_t *next, *last;\nstatic uint16_t *list;\nstatic size_t listed;\n\
         static int {name}_lex(void) {{ return next < last ? *next++ : 0; }}\n\
         static void {name}_error(const char *s) {{ (void)s; }}\n}}\n"
    );
    s += &errors(&kind, name);
    if kind != Errors::Plain {
        // Deep inputs are timed, too.
        s += "%code top {\n#define YYMAXDEPTH 1000000\n}\n";
    }
    for x in 1..g.terminals {
        writeln!(s, "%token T{x} {x}").unwrap();
    }
    writeln!(s, "%start n{}\n%%", g.terminals).unwrap();
    for (p, (&a, right)) in g.left.iter().zip(&g.right).enumerate() {
        let right: Vec<String> = right.iter().map(|&x| symbol(x)).collect();
        writeln!(s, "n{a}: {} {{ list[listed++] = {p}; }};", right.join(" ")).unwrap();
    }
    let report = if kind == Errors::All { REPORT } else { "" };
    write!(
        s,
        "%%\n{report}int {name}_run(const uint8_t *input, size_t n, uint16_t *out, size_t *count) {{\n\
         next = input; last = input + n; list = out; listed = 0;\n\
         int r = {name}_parse();\n*count = listed;\nreturn r;\n}}\n"
    )
    .unwrap();
    s
}

fn array<T: std::fmt::Display>(kind: &str, name: &str, v: &[T]) -> String {
    let v: Vec<String> = v.iter().map(|x| x.to_string()).collect();
    format!("static const {kind} {name}[] = {{{}}};\n", v.join(","))
}

fn main() {
    let args: Vec<String> = std::env::args().collect();
    for path in &args[2..] {
        let name = std::path::Path::new(path).file_stem().unwrap().to_str().unwrap();
        let g = parse(&std::fs::read_to_string(path).expect(path));
        let table = lalr::table(&g).unwrap_or_else(|| panic!("{path}: conflict"));
        let h = array("uint16_t", &format!("{name}_table"), &table)
            + &array("uint8_t", &format!("{name}_input"), &sentence(&g, 65535));
        std::fs::write(format!("{}/{name}.h", args[1]), h).unwrap();
        for (suffix, kind) in [("", Errors::Plain), ("_lac", Errors::Detailed), ("_all", Errors::All)] {
            let named = format!("{name}{suffix}");
            std::fs::write(format!("{}/{named}.y", args[1]), bison(&g, &named, kind)).unwrap();
        }
    }
}
