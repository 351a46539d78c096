//! Repeats tokens once for each row of a lane, for the macros of `fastlanes-rattle`.

use proc_macro::{Delimiter, Group, Ident, Literal, TokenStream, TokenTree};
use std::ops::Range;

/// `for_rows!(NAME in TYPE { BODY })` repeats the body once for each number from 0 to T - 1. TYPE is `u8`, `u16`, `u32` or `u64`, and
/// has T bits. The number replaces NAME. `WORD~NAME` becomes one identifier. If the body has sections `#( .. )*`, each section is
/// repeated, and the rest is written once.
#[proc_macro]
pub fn for_rows(input: TokenStream) -> TokenStream {
    match parse(input) {
        Ok((rows, body)) => rows.write(body),
        Err(text) => format!("::core::compile_error!({text:?})")
            .parse()
            .expect("a macro call"),
    }
}

/// A name, and the numbers that replace it.
struct Rows {
    name: String,
    numbers: Range<u64>,
}

fn parse(input: TokenStream) -> Result<(Rows, TokenStream), String> {
    let tokens: Vec<TokenTree> = input.into_iter().flat_map(bare).collect();
    let [
        TokenTree::Ident(name),
        TokenTree::Ident(word),
        TokenTree::Ident(element),
        TokenTree::Group(body),
    ] = &tokens[..]
    else {
        return Err("invalid arguments: expected NAME in TYPE { BODY }".into());
    };
    let bits = match element.to_string().as_str() {
        "u8" => 8,
        "u16" => 16,
        "u32" => 32,
        "u64" => 64,
        other => return Err(format!("invalid type '{other}': expected u8, u16, u32 or u64")),
    };
    if word.to_string() != "in" || body.delimiter() != Delimiter::Brace {
        return Err("invalid arguments: expected NAME in TYPE { BODY }".into());
    }
    let rows = Rows {
        name: name.to_string(),
        numbers: 0..bits,
    };
    Ok((rows, body.stream()))
}

/// Returns the tokens of a group without delimiters, in which a macro passes a type, and any other token itself.
fn bare(token: TokenTree) -> Vec<TokenTree> {
    match token {
        TokenTree::Group(group) if group.delimiter() == Delimiter::None => {
            group.stream().into_iter().flat_map(bare).collect()
        }
        other => vec![other],
    }
}

impl Rows {
    fn write(&self, body: TokenStream) -> TokenStream {
        let (sections, found) = self.with_sections(body.clone());
        if found { sections } else { self.repeated(&body) }
    }

    /// Repeats the tokens once for each number.
    fn repeated(&self, tokens: &TokenStream) -> TokenStream {
        self.numbers
            .clone()
            .flat_map(|number| self.with_number(tokens.clone(), number))
            .collect()
    }

    /// Repeats each section of the tokens. Also returns whether there is one.
    fn with_sections(&self, tokens: TokenStream) -> (TokenStream, bool) {
        let tokens: Vec<TokenTree> = tokens.into_iter().collect();
        let (mut written, mut found) = (TokenStream::new(), false);
        let mut rest = &tokens[..];
        while let [first, after @ ..] = rest {
            rest = after;
            match (first, after) {
                (TokenTree::Punct(hash), [TokenTree::Group(section), TokenTree::Punct(star), after @ ..])
                    if hash.as_char() == '#'
                        && section.delimiter() == Delimiter::Parenthesis
                        && star.as_char() == '*' =>
                {
                    written.extend(self.repeated(&section.stream()));
                    (rest, found) = (after, true);
                }
                (TokenTree::Group(group), _) => {
                    let (inner, has_section) = self.with_sections(group.stream());
                    written.extend([regrouped(group, inner)]);
                    found |= has_section;
                }
                _ => written.extend([first.clone()]),
            }
        }
        (written, found)
    }

    /// Replaces the name by the number.
    fn with_number(&self, tokens: TokenStream, number: u64) -> TokenStream {
        let tokens: Vec<TokenTree> = tokens.into_iter().collect();
        let mut written = TokenStream::new();
        let mut rest = &tokens[..];
        while let [first, after @ ..] = rest {
            rest = after;
            let token = match (first, after) {
                (TokenTree::Ident(word), [TokenTree::Punct(tilde), TokenTree::Ident(name), after @ ..])
                    if tilde.as_char() == '~' && self.is_name(name) =>
                {
                    rest = after;
                    Ident::new(&format!("{word}{number}"), word.span()).into()
                }
                (TokenTree::Ident(name), _) if self.is_name(name) => {
                    let mut literal = Literal::u64_unsuffixed(number);
                    literal.set_span(name.span());
                    literal.into()
                }
                (TokenTree::Group(group), _) => regrouped(group, self.with_number(group.stream(), number)),
                _ => first.clone(),
            };
            written.extend([token]);
        }
        written
    }

    fn is_name(&self, word: &Ident) -> bool {
        word.to_string() == self.name
    }
}

/// Returns a group with other tokens.
fn regrouped(group: &Group, tokens: TokenStream) -> TokenTree {
    let mut changed = Group::new(group.delimiter(), tokens);
    changed.set_span(group.span());
    changed.into()
}
