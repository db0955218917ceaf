//! Items and fields with their attributes, read off the tokens.

use proc_macro::{Delimiter, Group, TokenStream, TokenTree};

pub struct Attribute {
    pub name: String,
    arguments: String,
}

impl Attribute {
    pub fn says(&self, word: &str) -> bool {
        self.arguments
            .split(|c: char| !c.is_alphanumeric())
            .any(|w| w == word)
    }
}

/// An item or a field: its attributes, and the tokens behind them.
#[derive(Default)]
pub struct Item {
    pub attributes: Vec<Attribute>,
    pub tokens: Vec<TokenTree>,
}

impl Item {
    pub fn without_attributes(self) -> TokenStream {
        self.tokens.into_iter().collect()
    }
}

/// The items of a module or an impl: each ends in braces or a semicolon.
pub fn items(body: TokenStream) -> Vec<Item> {
    split(body, |tree| match tree {
        TokenTree::Group(group) => group.delimiter() == Delimiter::Brace,
        TokenTree::Punct(punct) => punct.as_char() == ';',
        _ => false,
    })
}

/// The fields of a struct: each ends in a comma. No field here has a type with a comma of its own.
pub fn fields(body: TokenStream) -> Vec<Item> {
    split(
        body,
        |tree| matches!(tree, TokenTree::Punct(punct) if punct.as_char() == ','),
    )
}

fn split(body: TokenStream, ends: fn(&TokenTree) -> bool) -> Vec<Item> {
    let mut items = vec![];
    let mut item = Item::default();
    let mut trees = body.into_iter().peekable();
    while let Some(tree) = trees.next() {
        if is_punct(&tree, '#') && item.tokens.is_empty() {
            if let Some(TokenTree::Group(group)) = trees.next() {
                item.attributes.push(attribute(group));
            }
            continue;
        }
        let last = ends(&tree) || trees.peek().is_none();
        item.tokens.push(tree);
        if last {
            items.push(std::mem::take(&mut item));
        }
    }
    items
}

fn attribute(group: Group) -> Attribute {
    let mut trees = group.stream().into_iter();
    let name = trees
        .next()
        .map(|tree| tree.to_string())
        .unwrap_or_default();
    Attribute {
        name,
        arguments: trees.map(|tree| tree.to_string()).collect(),
    }
}

/// The name behind a keyword, if the keyword is there.
pub fn ident_after(trees: &[TokenTree], keyword: &str) -> Option<String> {
    let at = trees
        .iter()
        .position(|tree| is_ident(tree) && tree.to_string() == keyword)?;
    trees.get(at + 1).map(|tree| tree.to_string())
}

pub fn is_ident(tree: &TokenTree) -> bool {
    matches!(tree, TokenTree::Ident(_))
}

fn is_punct(tree: &TokenTree, mark: char) -> bool {
    matches!(tree, TokenTree::Punct(punct) if punct.as_char() == mark)
}

pub fn braced(body: TokenStream) -> TokenTree {
    Group::new(Delimiter::Brace, body).into()
}
