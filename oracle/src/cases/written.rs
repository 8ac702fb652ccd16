//! Grammars written to tell one change of the Rust from another: each reaches one corner.

/// With the Rust's bits. `(PEEK[0..0])*` loops from every state and is reported with it.
pub const TEXTS: &[&str] = &[
    // What an open pair answers: not empty, both ways, and its place in what is remembered.
    r#"r = { PEEK[0..0] ~ r } p = { PUSH(r) ~ (PEEK[0..0])* }"#,
    r#"r = { "x" ~ r } p = { PUSH(r) ~ (PEEK[0..0])* }"#,
    r#"r = { n } n = { !b } b = { n } q = { b ~ (PEEK[0..0])* }"#,
    r#"r = { b } n = { !b } b = { n } q = { b ~ (PEEK[0..0])* }"#,
    r#"q = { r } r = { (&r ~ PEEK[0..0])* }"#,
    r#"r = { (&r ~ PEEK[0..0])* } q = { r }"#,
    r#"q = { r } r = { (&r ~ PEEK[0..0]){2,} }"#,
    r#"r = { !r ~ PEEK[0..0] } q = { r* }"#,
    r#"q = { r* } r = { !r ~ PEEK[0..0] }"#,
    r#"a = { PUSH_LITERAL("") ~ a ~ (PEEK[0..0])* | "x" }"#,
    r#"a = { "x" ~ PUSH_LITERAL("") ~ a | "y" } b = { a ~ (PEEK[0..0])* }"#,
    // A choice is empty if each side that can succeed is.
    r#"a = { PUSH("a"? | "b") ~ (PEEK[0..0])* }"#,
    r#"a = { PUSH("b" | "a"?) ~ (PEEK[0..0])* }"#,
    r#"a = { POP_ALL ~ PUSH(DROP | "") ~ (PEEK[0..0])* }"#,
    r#"a = { POP_ALL ~ PUSH(!"" | "") ~ (PEEK[0..0])* }"#,
    r#"a = { PUSH("" | "b") ~ (PEEK[0..0])* }"#,
    r#"a = { PUSH(!"a" | "") ~ (PEEK[0..0])* }"#,
    r#"a = { PUSH(!"a" | "b") ~ (PEEK[0..0])* }"#,
    r#"a = { POP_ALL ~ PUSH(!"a" | DROP) ~ (PEEK[0..0])* }"#,
    r#"a = { PUSH(!"a" | "b"?) ~ (PEEK[0..0])* }"#,
    r#"a = { POP_ALL ~ PUSH(DROP?) ~ (PEEK[0..0])* }"#,
    // Optional copies: a failed one takes the copy's own start.
    r#"a = { PUSH_LITERAL("y") ~ PUSH_LITERAL("") ~ (!POP ~ "x" | &POP ~ DROP ~ DROP ~ PUSH_LITERAL("") ~ PUSH_LITERAL("y")){,3} ~ (PEEK[0..0])* }"#,
    r#"a = { PUSH_LITERAL("y") ~ PUSH_LITERAL("") ~ (!POP ~ "x" | &POP ~ DROP ~ DROP ~ PUSH_LITERAL("") ~ PUSH_LITERAL("y")){2} ~ (PEEK[0..0])* }"#,
    r#"a = { PUSH_LITERAL("y") ~ PUSH_LITERAL("") ~ (!POP ~ "x" | &POP ~ DROP ~ DROP ~ PUSH_LITERAL("") ~ PUSH_LITERAL("y"))* ~ (PEEK[0..0])* }"#,
    // A run is empty if all its copies are.
    r#"a = { PUSH(POP_ALL*) ~ (PEEK[0..0])* }"#,
    r#"a = { PUSH(POP_ALL+) ~ (PEEK[0..0])* }"#,
    r#"a = { PUSH(POP_ALL{2}) ~ (PEEK[0..0])* }"#,
    r#"a = { PUSH(POP_ALL{1,2}) ~ (PEEK[0..0])* }"#,
    r#"a = { PUSH(DROP*) ~ (PEEK[0..0])* }"#,
    r#"a = { PUSH(DROP*) ~ (PEEK[0..0])* } COMMENT = { " " }"#,
    r#"a = { PUSH(DROP{2}) ~ (PEEK[0..0])* } COMMENT = { " " }"#,
    r#"a = { PUSH(DROP{1}) ~ (PEEK[0..0])* } COMMENT = { " " }"#,
    r#"a = { PUSH(DROP{,1}) ~ (PEEK[0..0])* } WHITESPACE = { " " }"#,
    r#"a = { PUSH("" ~ "") ~ (PEEK[0..0])* } WHITESPACE = { " " }"#,
    // The list below the cut may have changed.
    r#"a = { POP_ALL ~ (!"a" ~ PUSH_LITERAL("") ~ PEEK[0..0] | PEEK[0..0])* }"#,
    r#"a = { POP_ALL ~ ("a" ~ PUSH_LITERAL("") | "b") ~ (DROP | PEEK[0..0])* }"#,
    r#"a = { POP_ALL ~ ("a" ~ PUSH_LITERAL("") | "b") ~ (PEEK_ALL ~ POP_ALL)* }"#,
    r#"a = { (DROP | PEEK[0..0])* }"#,
    r#"a = { (PUSH_LITERAL("") ~ PEEK[0..0])* }"#,
    r#"a = { (PUSH_LITERAL("") ~ PUSH_LITERAL("y") ~ PEEK[0..0] ~ DROP)* }"#,
    r#"a = { (DROP | PUSH_LITERAL("") ~ PEEK[0..0])* }"#,
    r#"a = { POP_ALL ~ (DROP | PUSH_LITERAL("") ~ PEEK[0..0])* }"#,
    r#"a = { POP_ALL ~ (PEEK_ALL ~ (DROP | PUSH_LITERAL("")))* }"#,
    r#"a = { POP_ALL ~ PUSH_LITERAL("") ~ (PEEK_ALL ~ (DROP | PUSH_LITERAL("")))* }"#,
    r#"a = { POP_ALL ~ ((DROP | PUSH_LITERAL("") ~ PUSH_LITERAL("")) ~ PEEK_ALL)* }"#,
    // Joins of bases.
    r#"a = { POP_ALL ~ ("c" ~ ("a" ~ PUSH_LITERAL("") | "b") | "d") ~ (PEEK[0..0])* }"#,
    r#"a = { POP_ALL ~ ("c" ~ ("a" ~ PUSH_LITERAL("") | "b") | "d") ~ PEEK_ALL* }"#,
    r#"a = { ("c" ~ POP_ALL | "d") ~ (PEEK[0..0])* }"#,
    r#"a = { ("c" ~ POP_ALL ~ ("a" ~ PUSH_LITERAL("") | "b") | "d") ~ (PEEK[0..0])* }"#,
    r#"a = { POP_ALL ~ PUSH_LITERAL("") ~ ("a" ~ PUSH_LITERAL("") | DROP) ~ (PEEK[0..0])* }"#,
    r#"a = { POP_ALL ~ PUSH_LITERAL("y") ~ ("a" ~ PUSH_LITERAL("") | "b") ~ (PEEK[0..0])* }"#,
    r#"a = { PUSH_LITERAL("") ~ PUSH_LITERAL("y") ~ ("a" ~ DROP ~ DROP ~ PUSH_LITERAL("y") ~ PUSH_LITERAL("") | "b") ~ (PEEK[0..0])* }"#,
    // Each node once, with the first state found to loop.
    r#"a = { ("p" ~ (PEEK[0..0])* | PUSH_LITERAL("")){2} }"#,
    r#"a = { (PUSH_LITERAL("") | "p") ~ ("p" ~ (PEEK[0..0])* | PUSH_LITERAL("")){3} }"#,
    r#"a = { ("p" ~ (PUSH("") ~ POP)* | PUSH_LITERAL("y")){9} }"#,
    r#"a = { ("p" ~ (PUSH("") ~ POP)+ | PUSH_LITERAL("y")){,12} }"#,
    r#"a = { ("p" ~ PEEK_ALL* | POP_ALL | "q"){2} }"#,
    // Leaves that leave the stack alone.
    r#"a = { 'a'..'z' ~ (PEEK[0..0])* }"#,
    r#"a = { PUSH('a'..'z') ~ (PEEK[0..0])* }"#,
    r#"a = { 'a'..'z' | (PEEK[0..0])* }"#,
    r#"a = { PEEK[1..] ~ (PEEK[0..0])* }"#,
    r#"a = { PEEK[0..1] | (PEEK[0..0])* }"#,
    r#"a = { PUSH(PEEK[-1..0]) ~ (PEEK[0..0])* }"#,
    r#"a = { (PEEK[1..0])* }"#,
    r#"a = { POP_ALL ~ (PEEK[..])* }"#,
    r#"a = { POP_ALL ~ PUSH_LITERAL("y") ~ (PEEK[..])* }"#,
    r#"a = { ANY ~ (PEEK[0..0])* }"#,
    r#"a = { PUSH(SOI) ~ (PEEK[0..0])* }"#,
    r#"a = { ^"" ~ PUSH(^"") ~ (PEEK[0..0])* }"#,
    r#"a = { PUSH(^"a") ~ (PEEK[0..0])* }"#,
    // DROP, POP and PEEK on each base.
    r#"a = { DROP ~ (PEEK[0..0])* }"#,
    r#"a = { DROP | (PEEK[0..0])* }"#,
    r#"a = { POP_ALL ~ DROP | (PEEK[0..0])* }"#,
    r#"a = { POP_ALL ~ (DROP | (PEEK[0..0])*) }"#,
    r#"a = { PUSH_LITERAL("") ~ DROP ~ (PEEK[0..0])* }"#,
    r#"a = { PUSH_LITERAL("y") ~ (POP | (PEEK[0..0])*) }"#,
    r#"a = { PUSH_LITERAL("y") ~ (PEEK | (PEEK[0..0])*) }"#,
    r#"a = { POP | (PEEK[0..0])* }"#,
    r#"a = { PUSH_LITERAL("") ~ POP ~ (PEEK[0..0])* }"#,
    r#"a = { PUSH_LITERAL("") ~ (POP | (PEEK[0..0])*) }"#,
    r#"a = { POP_ALL ~ ("a" ~ PUSH_LITERAL("") | "b") ~ POP ~ (PEEK[0..0])* }"#,
    r#"a = { POP_ALL ~ ("a" ~ PUSH_LITERAL("") | "b") ~ (POP | (PEEK[0..0])*) }"#,
    r#"a = { POP_ALL ~ ("a" ~ PUSH_LITERAL("") | "b") ~ POP_ALL ~ (PEEK[0..0])* }"#,
    r#"a = { POP_ALL ~ ("a" ~ PUSH_LITERAL("") | "b") ~ PUSH_LITERAL("") ~ (PEEK_ALL)* }"#,
    r#"a = { PUSH_LITERAL("y") ~ (POP_ALL | (PEEK[0..0])*) }"#,
    r#"a = { POP_ALL ~ PUSH_LITERAL("y") ~ (POP_ALL | (PEEK[0..0])*) }"#,
    r#"a = { POP_ALL ~ (PEEK ~ (PEEK[0..0])* | (PEEK[0..0])*) }"#,
    // Names looked up again after they were left.
    r#"n = { !"q" } a = { (n ~ n)* }"#,
    r#"n = { "" } a = { (n ~ n)* }"#,
    r#"n = { "q" } a = { n ~ a | (n | n)* } b = { n ~ n }"#,
    r#"n = { !"q" } a = { n ~ n ~ a }"#,
    r#"n = { "" } a = { n ~ (n ~ (n ~ a)) }"#,
    // Counts: none, one, and the period.
    r#"a = { PUSH_LITERAL(""){0} ~ (PEEK[0..0])* }"#,
    r#"a = { PUSH_LITERAL(""){,0} ~ (PEEK[0..0])* }"#,
    r#"a = { PUSH_LITERAL(""){0,0} ~ (PEEK[0..0])* }"#,
    r#"a = { PUSH_LITERAL(""){8} ~ (PEEK[0..0])* }"#,
    r#"a = { PUSH_LITERAL(""){9} ~ (PEEK[0..0])* }"#,
    r#"a = { PUSH_LITERAL(""){10} ~ (PEEK[0..0])* }"#,
    r#"a = { PUSH_LITERAL(""){18} ~ (PEEK[0..0])* }"#,
    r#"a = { PUSH_LITERAL(""){4294967295} ~ (PEEK[0..0])* }"#,
    r#"a = { PUSH_LITERAL(""){3,7} ~ (PEEK[0..0])* }"#,
    r#"a = { PUSH_LITERAL(""){7,3} ~ (PEEK[0..0])* }"#,
    r#"a = { (PUSH_LITERAL("") | "b"){3} ~ (PEEK[0..0])* }"#,
    r#"a = { POP_ALL ~ PUSH_LITERAL("y") ~ ("a" ~ PUSH_LITERAL("")){2} | (PEEK[0..0])* }"#,
    r#"a = { PUSH_LITERAL(""){7} ~ (PUSH("") ~ POP)* }"#,
    r#"a = { PUSH_LITERAL(""){8} ~ (PUSH("") ~ POP)* }"#,
];

/// A loop that is reported unless this skip may change the stack.
pub const SKIPS: &[&str] = &[
    r#""x""#,
    r#""x" ~ "y""#,
    r#""x" | "y""#,
    r#"PUSH("x")"#,
    r#"PUSH_LITERAL("x")"#,
    r#"POP"#,
    r#"DROP"#,
    r#"POP_ALL"#,
    r#"PEEK"#,
    r#"PEEK_ALL"#,
    r#"PEEK[..]"#,
    r#"PEEK[1..2]"#,
    r#"'a'..'z'"#,
    r#"^"x""#,
    r#"ANY"#,
    r#"&POP"#,
    r#"!PUSH("x")"#,
    r#""x" ~ DROP"#,
    r#"DROP ~ "x""#,
    r#""x" | POP_ALL"#,
    r#"POP_ALL | "x""#,
    r#"POP?"#,
    r#"POP*"#,
    r#"POP+"#,
    r#"POP{0}"#,
    r#"POP{2,}"#,
    r#"POP{,0}"#,
    r#"POP{0,0}"#,
    r#"#t = POP"#,
    r#"("x" ~ (&DROP | "z")+)?"#,
    r#"n"#,
    r#"m"#,
    r#"n ~ m"#,
    r#"m | n"#,
    r#"COMMENT"#,
];

/// The grammars with these skips: as WHITESPACE, as COMMENT, and each beside the other.
pub fn with_skips() -> Vec<String> {
    let looping = r#"a = { (PEEK[0..0])* } n = { "x" ~ n | m } m = { "q" ~ (DROP | n) }"#;
    let quiet = r#"a = { (PEEK[0..0])* } n = { "x" ~ n | m } m = { "q" ~ (&DROP | n) }"#;
    let mut texts = vec![];
    for skip in SKIPS {
        let names = skip.contains(['n', 'm']);
        for rest in [looping, quiet] {
            if rest == looping || names {
                texts.push(format!("{rest} WHITESPACE = {{ {skip} }}"));
                texts.push(format!("{rest} COMMENT = {{ {skip} }}"));
            }
        }
        texts.push(format!(
            r#"COMMENT = {{ {skip} }} {quiet} WHITESPACE = {{ " " ~ n }}"#
        ));
    }
    texts
}
