"""Makes a program that times ms_blocks: half a million blocks are taken and given back, at each of five sizes.

    python3 bench/free_blocks.py /tmp/blocks && cd /tmp/blocks/crates/bench && rt run

It stands on the crates as they are, and is proved with them. Blocks have 2 to 65,537 words, and so have requests. The
numbers are in README.md.
"""
import argparse
import pathlib
import shutil

NAMES = ['ms_base', 'ms_blocks']
PROGRAM = '''#![tactic(auto)]
ghost use Rattle.std.specs.Prelude.{◌≤◌};

use ms_base::{Block, Refusal};
use ms_blocks::FreeBlocks;
use std::alloc::Global;
use std::io;
use std::time::Instant;

/// The number after this one, by chance.
fn next(seed: u64) -> u64 {
    let a = seed ^ (seed << 13);
    let b = a ^ (a >> 7);
    b ^ (b << 17)
}

/// Keeps so many blocks, one behind the other.
fn filled(alloc: Global, kept: u64) -> Result<FreeBlocks<Global>, Refusal>
    requires { kept ≤ 300000 }
{
    let mut blocks = FreeBlocks::new(alloc);
    blocks.reserve(300_000)?;
    let mut seed = 88_172_645_463_325_252;
    for index in 0..kept {
        seed = next(seed);
        blocks.add(Block { start: index * 65_538, words: 2 + seed % 65_536 });
    }
    Ok(blocks)
}

/// Takes a block so many times, and gives it back.
fn taken_and_given(blocks: &mut FreeBlocks<Global>, turns: u64) -> u64 {
    let mut seed = 1_234_567;
    let mut sum: u64 = 0;
    for _ in 0..turns {
        seed = next(seed);
        if let Some(block) = blocks.remove(2 + seed % 65_536) {
            sum = sum.wrapping_add(block.start);
            blocks.add(block);
        }
    }
    sum
}

fn main(rt: HostRuntime) -> io::Result<()> {
    for kept in [100, 1_000, 10_000, 100_000, 300_000] {
        let Ok(mut blocks) = filled(rt.alloc(), kept) else {
            return Ok(());
        };
        let start = Instant::now(&rt)?;
        let sum = taken_and_given(&mut blocks, 500_000);
        let took = start.elapsed(&rt)?.as_millis();
        println!(rt; "{kept} kept: {took} nanoseconds a call, sum {sum}, len {}", blocks.len())?;
    }
    Ok(())
}
'''
LEMMAS = '''-- Runs that end below a word stay so with one more, and none of them meets what lies above. Used by `filled`.
use Rattle.std.proofs.Common.{◌≡◌, ◌≤◌, ◌+◌, ℕ, List, [], ◌∷◌, refl, false, sym, subst, ap, arith}
use Rattle.std.specs.Ordering.{nat_cmp, match_ordering, is_eq}
use Rattle.std.specs.declared.cmp.Ordering.TheVariants.{Less, Equal, Greater}
use Rattle.std.specs.BTreeMap.{insert_entry}
use Rattle.std.specs.List.{AllByRecursion}
use Rattle.std.proofs.lemmas.Bool.{or_from}
use Rattle.std.proofs.lemmas.Bool.Decides.{nat_tests}
use Rattle.ms_base.specs.Interval.{meet, meets_any}
use Rattle.ms_base.specs.Names.{with_new}
use Rattle.ms_base.proofs.entries.EntryLemmas.{same_name}

-- A run ends at a word or below.
abbrev pub EndsBelow : ℕ → ℕ × ℕ → Type 0
EndsBelow low run = run.0 + run.1 ≤ low

pub below_with : (low : ℕ) (runs : List (ℕ × ℕ)) (start words : ℕ) → AllByRecursion (EndsBelow low) runs
    → start + words ≤ low → AllByRecursion (EndsBelow low) (with_new runs start words)
below_with low [] start words all ends = (ends, tt)
below_with low (run ∷ runs) start words all ends =
    elim (nat_cmp start run.0) as (λ o. nat_cmp start run.0 ≡ o → AllByRecursion (EndsBelow low)
    (match_ordering o ((start, words) ∷ run ∷ runs) ((run.0, words) ∷ runs) (run ∷ insert_entry nat_cmp runs start words))) [
      | Less ↦ λ p. (ends, all)
      | Equal ↦ λ p. (subst (λ (at : ℕ). at + words ≤ low) (sym (same_name start run.0 (ap is_eq p))) ends, all.1)
      | Greater ↦ λ p. (all.0, below_with low runs start words all.1 ends)
    ] refl

pub below_more : (low high : ℕ) (runs : List (ℕ × ℕ)) → low ≤ high → AllByRecursion (EndsBelow low) runs
    → AllByRecursion (EndsBelow high) runs
below_more low high [] more all = tt
below_more low high (run ∷ runs) more all = (omega (arith, all.0, more), below_more low high runs more all.1)

behind : (a m b n : ℕ) → b + n ≤ a → meet a m b n ≡ false
behind a m b n h = grind (arith, nat_tests)

pub clear_above : (low start words : ℕ) (runs : List (ℕ × ℕ)) → low ≤ start → AllByRecursion (EndsBelow low) runs
    → meets_any (start, words) runs ≡ false
clear_above low start words [] above all = refl
clear_above low start words (run ∷ runs) above all =
    or_from (meet start words run.0 run.1) (meets_any (start, words) runs)
    (behind start words run.0 run.1 (omega (arith, all.0, above))) (clear_above low start words runs above all.1)
'''
INVARIANTS = '''use Rattle.std.proofs.Common.{◌≡◌, ◌+◌, ◌*◌}
use Rattle.std.specs.List.{AllByRecursion}
use Rattle.bench.proofs.BelowLemmas.{EndsBelow}
use Rattle.bench.proofs.filled.Given as goal

abbrev pub invariant-loop-index : goal.invariant-loop-index
invariant-loop-index l = record {
  room : l.blocks.room + l.index ≡ 300000;
  below : AllByRecursion (EndsBelow (l.index * 65538)) l.blocks.kept;
}
'''
ANSWERS = '''use Rattle.std.proofs.Common.{◌≤◌, ◌+◌, ◌*◌, ◌%◌, arith}
use Rattle.std.specs.List.{AllByRecursion}
use Rattle.bench.proofs.BelowLemmas.{EndsBelow, below_with, below_more, clear_above}
use Rattle.bench.proofs.filled.Goals as goal

pub add-requires-clause-apart : goal.add-requires-clause-apart
add-requires-clause-apart c =
    clear_above (c.loop-index.index * 65538) (c.loop-index.index * 65538) (2 + c.next-seed.result % 65536)
    c.loop-index.blocks.kept (omega arith) c.loop-index.invariant.below

pub loop-index-preserved : goal.loop-index-preserved
loop-index-preserved c =
    let low = c.loop-index.index * 65538 in
    let high = (c.loop-index.index + 1) * 65538 in
    let words = 2 + c.next-seed.result % 65536 in
    record {
      room = omega (arith, c.add.ensures.room, c.loop-index.invariant.room);
      below = rw c.add.ensures.kept (below_with high c.loop-index.blocks.kept low words
          (below_more low high c.loop-index.blocks.kept (omega arith) c.loop-index.invariant.below) (omega arith));
    }
'''


def main():
    parser = argparse.ArgumentParser(description=__doc__, formatter_class=argparse.RawDescriptionHelpFormatter)
    parser.add_argument('folder', metavar='FOLDER', type=pathlib.Path, help='where the program is made')
    out = parser.parse_args().folder
    here = pathlib.Path(__file__).resolve().parent.parent
    for name in NAMES:
        for part in ['src', 'specs', 'proofs']:
            shutil.copytree(here / 'crates' / name / part, out / 'crates' / name / part, dirs_exist_ok=True)
    rows = (here / 'crates.txt').read_text().splitlines()
    lines = [row for row in rows if row.split(':')[0].split(' ')[0] in NAMES]
    (out / 'crates.txt').write_text('\n'.join(lines) + '\nbench: ms_base ms_blocks\n')
    bench = out / 'crates/bench'
    for path, text in [
        ('src/main.rt', PROGRAM),
        ('proofs/Lib.antt', 'pub mod BelowLemmas\n'),
        ('proofs/BelowLemmas.antt', LEMMAS),
        ('proofs/filled/Invariants.antt', INVARIANTS),
        ('proofs/filled/Answers.antt', ANSWERS),
    ]:
        (bench / path).parent.mkdir(parents=True, exist_ok=True)
        (bench / path).write_text(text)


main()
