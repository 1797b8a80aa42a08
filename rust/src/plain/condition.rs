//! Conditions: terms joined by `+`, factors joined by `.`, `!`, parentheses, `0`, `1` and letters.

use super::{INPUTS, PARENTHESES};

/// What the condition says at a setting, or nothing if it does not read.
pub fn holds(text: &[u8], inputs: usize, setting: usize) -> Option<bool> {
    // A letter is one of the most inputs there are, also where more are told.
    let inputs = inputs.min(INPUTS);
    let mut reader = Reader { text, inputs, setting, open: 0 };
    let value = reader.condition()?;
    reader.text.is_empty().then_some(value)
}

/// The text still to be read, and the parentheses open before it.
struct Reader<'a> {
    text: &'a [u8],
    inputs: usize,
    setting: usize,
    open: usize,
}

impl Reader<'_> {
    fn condition(&mut self) -> Option<bool> {
        let mut value = self.term()?;
        while self.takes(b'+') {
            value |= self.term()?;
        }
        Some(value)
    }

    fn term(&mut self) -> Option<bool> {
        let mut value = self.factor()?;
        while self.takes(b'.') {
            value &= self.factor()?;
        }
        Some(value)
    }

    fn factor(&mut self) -> Option<bool> {
        let (&sign, rest) = self.text.split_first()?;
        self.text = rest;
        match sign {
            b'!' => self.factor().map(|value| !value),
            b'(' => self.parentheses(),
            b'0' => Some(false),
            b'1' => Some(true),
            b'a'..=b'z' => self.letter(usize::from(sign - b'a')),
            _ => None,
        }
    }

    fn parentheses(&mut self) -> Option<bool> {
        if self.open == PARENTHESES {
            return None;
        }
        self.open += 1;
        let value = self.condition()?;
        self.open -= 1;
        self.takes(b')').then_some(value)
    }

    fn letter(&self, input: usize) -> Option<bool> {
        (input < self.inputs).then_some(self.setting >> input & 1 == 1)
    }

    /// Takes the sign if it comes next.
    fn takes(&mut self, sign: u8) -> bool {
        match self.text.split_first() {
            Some((&next, rest)) if next == sign => {
                self.text = rest;
                true
            }
            _ => false,
        }
    }
}

#[cfg(test)]
mod tests {
    use super::holds;

    #[test]
    fn rows_of_document_01() {
        assert_eq!(holds(b"a+b.c", 3, 1), Some(true));
        assert_eq!(holds(b"!a.b", 2, 0), Some(false));
        for text in
            ["a+", "()", "c", "", " a", "a ", "a\n", "A", "ab", "(a", "a)", "!", "!+a", "a..b"]
        {
            assert_eq!(holds(text.as_bytes(), 2, 0), None, "{text}");
        }
    }

    #[test]
    fn letters_are_a_to_h_whatever_the_inputs() {
        for inputs in [0, 1, 7, 8, 9, 26, 200, usize::MAX] {
            for sign in 0..=u8::MAX {
                let number = usize::from(sign).wrapping_sub(usize::from(b'a'));
                let reads = b"01".contains(&sign) || number < inputs.min(8);
                assert_eq!(holds(&[sign], inputs, 0).is_some(), reads, "{sign} of {inputs}");
                if number < inputs.min(8) {
                    assert_eq!(holds(&[sign], inputs, 1 << number), Some(true));
                    assert_eq!(holds(&[sign], inputs, !(1 << number)), Some(false));
                }
            }
        }
    }

    #[test]
    fn eight_parentheses_read_and_nine_do_not() {
        let nested = |depth: usize| "(".repeat(depth) + "a" + &")".repeat(depth);
        assert_eq!(holds(nested(8).as_bytes(), 1, 1), Some(true));
        assert_eq!(holds(nested(9).as_bytes(), 1, 1), None);
        let row = format!("{}.{}", nested(8), nested(8));
        assert_eq!(holds(row.as_bytes(), 1, 1), Some(true));
    }
}
