//! The nesting rules of document 01, each instruction's by itself: refusal 3, and limit 4. Plain and quadratic.

use crate::bytecode::{Chunk, Op};
use crate::listing::Listing;
use crate::refusal::Refusal;
use std::ops::Range;

/// The most open blocks (limit 4).
pub const MAX_OPEN_BLOCKS: usize = 8;

/// Refusal 3 at the first instruction that breaks a rule, chunk by chunk; after all chunks limit 4.
pub fn check(listing: &Listing) -> Result<(), Refusal> {
    let chunks = &listing.module.chunks;
    let blocks: Vec<Vec<Block>> = chunks.iter().map(blocks).collect();
    for (chunk, (code, blocks)) in chunks.iter().zip(&blocks).enumerate() {
        if let Some(ip) = (0..code.ops.len()).find(|ip| !rule_holds(&code.ops, blocks, *ip)) {
            return Err(Refusal { number: 3, chunk, fields: vec![ip as u64] });
        }
    }
    for (chunk, blocks) in blocks.iter().enumerate() {
        if let Some(block) = blocks.iter().find(|block| open_blocks(blocks, block.opener) > MAX_OPEN_BLOCKS) {
            return Err(Refusal::limit(chunk, block.opener, 4));
        }
    }
    Ok(())
}

/// What an opener opens, where its closers exist and come in order.
struct Block {
    opener: usize,
    /// The Else of an If that has one.
    middle: Option<usize>,
    /// EndIf or EndLoop.
    closer: usize,
    /// A loop's target.
    exit: Option<usize>,
}

impl Block {
    /// The arm that holds an instruction. Without an Else the second arm is empty.
    fn arm_with(&self, ip: usize) -> Option<Range<usize>> {
        let middle = self.middle.unwrap_or(self.closer);
        [self.opener + 1..middle, middle + 1..self.closer].into_iter().find(|arm| arm.contains(&ip))
    }
}

fn blocks(chunk: &Chunk) -> Vec<Block> {
    (0..chunk.ops.len()).filter_map(|ip| block(&chunk.ops, ip)).collect()
}

fn block(ops: &[Op], opener: usize) -> Option<Block> {
    match ops[opener] {
        Op::If(target) => {
            let target = usize::from(target);
            let before = target.checked_sub(1).filter(|before| *before > opener);
            match before.map(|before| (before, ops.get(before))) {
                Some((middle, Some(Op::Else(end)))) => {
                    let closer = usize::from(*end);
                    let fits = closer > middle && matches!(ops.get(closer), Some(Op::EndIf));
                    fits.then_some(Block { opener, middle: Some(middle), closer, exit: None })
                }
                _ => {
                    let fits = target > opener && matches!(ops.get(target), Some(Op::EndIf));
                    fits.then_some(Block { opener, middle: None, closer: target, exit: None })
                }
            }
        }
        Op::Loop(target) => {
            let exit = usize::from(target);
            let closer = exit.checked_sub(1).filter(|closer| *closer > opener)?;
            let fits = matches!(ops.get(closer), Some(Op::EndLoop(_)));
            fits.then_some(Block { opener, middle: None, closer, exit: Some(exit) })
        }
        _ => None,
    }
}

/// Whether the instruction keeps its rule. Only blocks that were opened before it count.
fn rule_holds(ops: &[Op], blocks: &[Block], ip: usize) -> bool {
    let earlier = || blocks.iter().take_while(|block| block.opener < ip);
    match ops[ip] {
        Op::If(_) | Op::Loop(_) => {
            let Some(own) = blocks.iter().find(|block| block.opener == ip) else {
                return false;
            };
            earlier().filter_map(|block| block.arm_with(ip)).all(|arm| arm.contains(&own.closer))
        }
        Op::Else(_) => earlier().any(|block| block.middle == Some(ip)),
        Op::EndIf => earlier().any(|block| block.exit.is_none() && block.closer == ip),
        Op::EndLoop(_) => earlier().any(|block| block.exit.is_some() && block.closer == ip),
        Op::Break(target) | Op::BreakIf(target) => {
            let around = earlier().filter(|block| block.exit.is_some() && block.arm_with(ip).is_some()).last();
            around.is_some_and(|block| block.exit == Some(usize::from(target)))
        }
        _ => true,
    }
}

/// The blocks that are open at an instruction, its own included.
fn open_blocks(blocks: &[Block], ip: usize) -> usize {
    blocks.iter().filter(|block| block.opener <= ip && ip <= block.closer).count()
}
