//! Conditions as texts: sums of products, in many dresses, and random ones.

use super::{all_lists, Random};
use crate::plain::{PARENTHESES, TEXT};

/// A product: the inputs it names, and those of them that are on.
#[derive(Clone, Copy, Debug, PartialEq, Eq)]
pub struct Product {
    pub named: usize,
    pub on: usize,
}

impl Product {
    /// Whether the product holds at a setting.
    pub fn holds(self, setting: usize) -> bool {
        setting & self.named == self.on
    }

    fn literals(self) -> Vec<Tree> {
        let named = (0..usize::BITS).filter(|input| self.named >> input & 1 == 1);
        let literal = |input: u32| {
            let letter = Tree::Sign(b'a' + input as u8);
            if self.on >> input & 1 == 1 {
                letter
            } else {
                Tree::Not(Box::new(letter))
            }
        };
        named.map(literal).collect()
    }
}

#[derive(Clone, Debug)]
enum Tree {
    Sign(u8),
    Not(Box<Tree>),
    And(Vec<Tree>),
    Or(Vec<Tree>),
}

impl Tree {
    fn of_products(products: &[Product]) -> Tree {
        let term = |product: &Product| joined(Tree::And, product.literals(), b'1');
        joined(Tree::Or, products.iter().map(term).collect(), b'0')
    }

    /// How loosely the outermost sign binds: 0 a factor, 1 a term, 2 a condition.
    fn looseness(&self) -> usize {
        match self {
            Tree::Sign(_) | Tree::Not(_) => 0,
            Tree::And(_) => 1,
            Tree::Or(_) => 2,
        }
    }

    /// Writes the tree where at most `allowed` looseness stands without parentheses.
    fn write(&self, allowed: usize, text: &mut String) {
        if self.looseness() > allowed {
            text.push('(');
            self.write(2, text);
            text.push(')');
            return;
        }
        match self {
            Tree::Sign(sign) => text.push(char::from(*sign)),
            Tree::Not(inner) => {
                text.push('!');
                inner.write(0, text);
            }
            Tree::And(parts) => write_joined(parts, '.', 0, text),
            Tree::Or(parts) => write_joined(parts, '+', 1, text),
        }
    }

    fn text(&self) -> String {
        let mut text = String::new();
        self.write(2, &mut text);
        text
    }

    /// Another tree that says the same.
    fn redressed(self, random: &mut Random) -> Tree {
        let changed = match self {
            Tree::Sign(sign) => Tree::Sign(sign),
            Tree::Not(inner) => Tree::Not(Box::new(inner.redressed(random))),
            Tree::And(parts) => Tree::And(shuffled(parts, random)),
            Tree::Or(parts) => Tree::Or(shuffled(parts, random)),
        };
        match random.below(24) {
            0 => not(not(changed)),
            1 => Tree::And(vec![changed, Tree::Sign(b'1')]),
            2 => Tree::Or(vec![Tree::Sign(b'0'), changed]),
            3 => Tree::And(vec![changed.clone(), changed]),
            4 | 5 => by_de_morgan(changed),
            6 => Tree::And(vec![changed]),
            7 => Tree::Or(vec![changed]),
            _ => changed,
        }
    }
}

fn not(tree: Tree) -> Tree {
    Tree::Not(Box::new(tree))
}

fn joined(join: fn(Vec<Tree>) -> Tree, mut parts: Vec<Tree>, empty: u8) -> Tree {
    match parts.len() {
        0 => Tree::Sign(empty),
        1 => parts.remove(0),
        _ => join(parts),
    }
}

fn write_joined(parts: &[Tree], sign: char, allowed: usize, text: &mut String) {
    for (index, part) in parts.iter().enumerate() {
        if index > 0 {
            text.push(sign);
        }
        part.write(allowed, text);
    }
}

fn shuffled(parts: Vec<Tree>, random: &mut Random) -> Vec<Tree> {
    let mut parts: Vec<Tree> = parts.into_iter().map(|part| part.redressed(random)).collect();
    random.shuffle(&mut parts);
    parts
}

fn by_de_morgan(tree: Tree) -> Tree {
    match tree {
        Tree::And(parts) => not(Tree::Or(parts.into_iter().map(not).collect())),
        Tree::Or(parts) => not(Tree::And(parts.into_iter().map(not).collect())),
        other => other,
    }
}

/// Most parentheses open at any place of a text.
fn depth(text: &str) -> usize {
    let mut open = 0;
    let mut most = 0;
    for sign in text.bytes() {
        match sign {
            b'(' => open += 1,
            b')' => open -= 1,
            _ => {}
        }
        most = most.max(open);
    }
    most
}

/// The sum of the products, as short as it is.
pub fn sum_of_products(products: &[Product]) -> String {
    Tree::of_products(products).text()
}

/// The sum of the products in some other dress that still fits a record.
pub fn dressed(products: &[Product], random: &mut Random) -> String {
    let text = Tree::of_products(products).redressed(random).text();
    if text.len() <= TEXT && depth(&text) <= PARENTHESES {
        text
    } else {
        sum_of_products(products)
    }
}

/// Every text of so many characters of an alphabet.
pub fn all_texts(alphabet: &[u8], length: usize) -> impl Iterator<Item = Vec<u8>> + '_ {
    let text = |list: Vec<u8>| list.into_iter().map(|at| alphabet[usize::from(at)]).collect();
    all_lists(alphabet.len(), length).map(text)
}

/// The text in that many parentheses.
pub fn nested(text: &str, parentheses: usize) -> String {
    "(".repeat(parentheses) + text + &")".repeat(parentheses)
}

/// The text lengthened to that many bytes and saying the same; one byte less if only one is missing.
pub fn padded(mut text: String, bytes: usize) -> String {
    while text.len() + 2 <= bytes {
        text.push_str(if text.len() + 3 == bytes { "+!1" } else { "+0" });
    }
    text
}

fn random_tree(random: &mut Random, inputs: usize, height: usize) -> Tree {
    let part = |random: &mut Random| random_tree(random, inputs, height - 1);
    match if height == 0 { 0 } else { random.below(6) } {
        1 => not(part(random)),
        2 | 3 => Tree::And((0..random.between(1, 3)).map(|_| part(random)).collect()),
        4 | 5 => Tree::Or((0..random.between(1, 3)).map(|_| part(random)).collect()),
        _ if random.once_in(12) => Tree::Sign(*random.pick(b"01")),
        _ => Tree::Sign(b'a' + random.below(inputs) as u8),
    }
}

/// Some condition that reads.
pub fn random_condition(random: &mut Random, inputs: usize) -> String {
    let height = random.below(4);
    let text = random_tree(random, inputs, height).text();
    if text.len() <= TEXT && depth(&text) <= PARENTHESES {
        text
    } else {
        "a".to_string()
    }
}
