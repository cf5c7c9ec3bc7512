//! The parse tree of an accepted log (request P8; document 000, section 8), as words.

use super::answers::{Outcome, Refusal, Verdict};
use super::calls::{enough, judge, letters};
use super::limits::{MEMO_ENTRIES, TABLE_WORDS};
use super::lookahead::string;
use super::one::{One, K, LETTERS};
use super::passed::Passed;
use super::words::Symbol;

/// What the top four bits of a vertex are.
const KIND: u32 = 8 << 28;

struct Tree<'a> {
    passed: &'a Passed<K, LETTERS>,
    input: &'a [u8],
    memo: &'a [u16],
    /// Which pairs of a nonterminal and a place have been met.
    met: Vec<bool>,
    words: Vec<u32>,
}

impl Tree<'_> {
    /// Goes down from this pair, unless it has been met, and gives its end.
    fn visit(&mut self, nonterminal: usize, start: usize) -> usize {
        let entry = nonterminal * (self.input.len() + 1) + start;
        let end = self.memo[entry] as usize;
        if std::mem::replace(&mut self.met[entry], true) {
            return end;
        }
        let passed = self.passed;
        let rule = passed.table.rule(nonterminal, string::<K, LETTERS>(&self.input[start..]));
        self.words.push(KIND | (end as u32) << 16 | (start as u32) << 7 | rule);
        for conjunct in passed.grammar.positives_of(&passed.grammar.rules[rule as usize]) {
            let mut place = start;
            for &symbol in passed.grammar.body(conjunct) {
                place = match symbol {
                    Symbol::Terminal(_) => place + 1,
                    Symbol::Nonterminal(b) => self.visit(b as usize, place),
                };
            }
        }
        end
    }
}

fn try_judge_tree(words: &[u32], events: &[u8], table: &mut [u32], memo: &mut [u16], tree: &mut [u32]) -> Result<(Outcome, u32), Refusal> {
    enough(table.len(), TABLE_WORDS, 1)?;
    enough(memo.len(), MEMO_ENTRIES, 2)?;
    enough(tree.len(), MEMO_ENTRIES, 14)?;
    let outcome = judge(words, events, table, memo);
    if outcome.verdict != Verdict::Accepted {
        return Ok((outcome, 0));
    }
    let passed = Passed::check::<One>(words)?;
    let input = letters(events);
    let met = vec![false; passed.grammar.nonterminals * (input.len() + 1)];
    let mut found = Tree { passed: &passed, input: &input, memo, met, words: Vec::new() };
    found.visit(0, 0);
    tree[..found.words.len()].copy_from_slice(&found.words);
    Ok((outcome, found.words.len() as u32))
}

/// Judges a log as `judge` does, and writes the parse tree of an accepted one; gives the number of its words.
pub fn judge_tree(words: &[u32], events: &[u8], table: &mut [u32], memo: &mut [u16], tree: &mut [u32]) -> (Outcome, u32) {
    try_judge_tree(words, events, table, memo, tree).unwrap_or_else(|refusal| (Outcome::from(refusal), 0))
}
