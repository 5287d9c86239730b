#!/usr/bin/env bash
# Tests of .ci/proofs_tables.py and .ci/contract_lines.py over two small crates: the page that is made, and each page, promise and
# source that is refused.
#
#     .ci/proofs_tests.sh
#
# Prints each run that differs. The last line is 'N passed, M failed', and the status is 0 where M is 0.
# shellcheck disable=SC2016 # Backquotes of the page stand in single quotes.
top=$(cd "$(dirname "$(readlink -f "$0")")/.." && pwd) || exit 2
scratch=$(mktemp -d) || exit 2
trap 'rm -rf "$scratch"' EXIT
cd "$scratch" || exit 2
# shellcheck source=.ci/judging.sh
. "$top/.ci/judging.sh"
command -v python3 >/dev/null || { echo 'the scripts want python3' >&2; exit 2; }

mkdir -p good/docs good/crates/eql_{cli,low}/{src,specs}
cat >good/crates/eql_cli/src/lib.rt <<'END'
mod program;
pub use program::{Ended, eql_main};
END
cat >good/crates/eql_cli/src/program.rt <<'END'
ghost use Rattle.eql_low.specs.Counting.{Sums};
use eql_low::{Counter, Steps};

pub struct Ended<'a> { name: &'a str }

pub fn eql_main<'a, F: Fn(u8) -> u8>(name: &'a str, by: F) -> Ended<'a>
where
    F: Copy,
    // Why it is done.
    ensures done { result.name ≡ name.now }

    ensures told { (λ a. a ≡ "{") name.now
        × Sums }
{
    Ended { name }
}
END
cat >good/crates/eql_low/src/lib.rt <<'END'
//! What `ensures nothing { }` is in a comment.
mod laws;
mod steps;
pub use laws::{counts_go_on, sums_hold};
pub use steps::{Counter, Steps};
END
cat >good/crates/eql_low/src/laws.rt <<'END'
/// Sums hold.
pub fn sums_hold()
    ensures { Sums }
{}

/// Counts go on.
pub fn counts_go_on()
    ensures { CountsGoOn }
{}

/// None of the crate's.
pub fn apart()
    ensures alone { Sums }
{}
END
cat >good/crates/eql_low/src/steps.rt <<'END'
pub trait Steps {
    /// How many.
    ghost steps_of: { Self → ℕ } = { λ _. 0 };

    fn step(&mut self, by: char) -> u64
        requires some { by ≢ '{' }
        ensures more { result ≡ steps_of self.new }
        ensures { IfOk result };

    ghost rises: { (x : Self) → 0 ≤ steps_of x };
}

#[derive(Drop)]
pub struct Counter { count: u64, ghost few: { count < 9 } }

impl Counter {
    pub const MOST: u64 = { 8 };

    pub const fn count(&self) -> u64
        ensures counted { Counted self.now result }
        /* Between clauses. */
        ensures few {
            result < 9

        }
    {
        let _ = "ensures shown { }";
        self.count
    }

    pub(crate) fn raise(&mut self)
        ghost by: { ℕ }
        requires { self.old + by < 9 }
        ensures up { self.new ≡ self.old + by }
    {}
}

impl Steps for Counter {
    fn step(&mut self, by: char) -> u64
        ensures own { result < 9 }
    { 0 }
}

impl Clone for Counter {
    fn clone(&self) -> Counter { Counter { count: self.count } }
}

#[cfg(test)]
fn of_tests()
    ensures none { Sums }
{}
END
cat >good/crates/eql_low/specs/Counting.antt <<'END'
-- what counts
abbrev pub Sums : Type 0
Sums = Unit {0}

pub record Counted (n m : ℕ) : Type 0 where
  pub same : m ≡ n
  pub within : Bounds m

pub record Bounds (m : ℕ) : Type 0 where
  pub least : 0 ≤ m

abbrev pub CountsGoOn : Type 0
CountsGoOn = Sums
END
cat >good/docs/promises.txt <<'END'
-- A comment.
== headline: what | says | clause

one | It is done
And so on
    eql_cli eql_main: done

== laws: promise | law | clauses | crate

Sums hold, and counts go on
    by `Sums`, `CountsGoOn` (Counting)
    eql_low sums_hold, counts_go_on

== calls: promise | call | clauses | crate

It is counted
    by `Counted` (Counting), `Steps` (src/steps.rt)
    not how long it takes
    not that it is right
    eql_low Counter::count
    eql_low Counter::count: counted (same, least)
    eql_low Steps::step: more
    eql_low Steps::step
    eql_low Steps: rises

The rest is told
    by `Sums` (eql_low: Counting)
    eql_cli eql_main: told
    eql_low Steps of Counter: more, own
    eql_low Steps Clone of Counter
    eql_low Clone of *
    eql_low specs/Counting.antt
END
cat >empty.md <<'END'
# A page

<!-- table headline -->
<!-- end -->

Between them.

<!-- table laws -->
| of | before |
<!-- end -->

| a | table | by hand |
|---|---|---|

<!-- table calls -->

<!-- end -->
END
cat >page.md <<'END'
# A page

<!-- table headline -->

| what | says | clause |
|---|---|---|
| one | It is done | `done` |
| And so on | | |

<!-- end -->

Between them.

<!-- table laws -->

| promise | law | clauses | crate |
|---|---|---|---|
| Sums hold, and counts go on | `sums_hold`, `counts_go_on` | the only one | eql_low |
| *by* `Sums`, `CountsGoOn` (Counting) | | | |

<!-- end -->

| a | table | by hand |
|---|---|---|

<!-- table calls -->

| promise | call | clauses | crate |
|---|---|---|---|
| It is counted | `Counter::count` | `counted`, `few` | eql_low |
| *by* `Counted` (Counting), `Steps` (src/steps.rt) | `Counter::count` | `counted` (`same`, `least`) | eql_low |
| *not claimed:* how long it takes | `Steps::step` | `more` | eql_low |
| *not claimed:* that it is right | `Steps::step` | `more`, 1 without a name | eql_low |
| | `Steps` | `rises` | eql_low |
| The rest is told | `eql_main` | `told` | eql_cli |
| *by* `Sums` (eql_low: Counting) | `Steps` of `Counter` | `more`, `own` | eql_low |
| | `Steps`, `Clone` of `Counter` | all of its trait | eql_low |
| | `Clone` of each type | all of its trait | eql_low |
| | [Counting.antt](../crates/eql_low/specs/Counting.antt) | theorems | eql_low |

<!-- end -->
END

# Runs a script over a fresh copy of the small crates in which FILE was changed by sed. An empty FILE changes nothing.
tables() { # NAME STATUS TOLD FILE CHANGE [WORD..]
    want "$3" ''
    rm -rf copy && cp -r good copy
    cp page.md copy/docs/PROOFS.md
    [ -z "$4" ] || sed -i "$5" "copy/$4"
    "$top/.ci/proofs_tables.py" "${@:6}" copy >got.out 2>got.err
    judge "$1" $? "$2"
}
# Compares the page that was left.
left() { # NAME WANTED
    want "$2" ''
    cp copy/docs/PROOFS.md got.out
    : >got.err
    judge "$1" 0 0
}
list=docs/promises.txt page=docs/PROOFS.md low=crates/eql_low/src cli=crates/eql_cli/src
tables 'the page as it is made' 0 '' '' '' --check
cp empty.md copy/docs/PROOFS.md
"$top/.ci/proofs_tables.py" copy >got.out 2>got.err
want '' ''
judge 'the tables are made' $? 0
left 'they stand in the page' @page.md
want '' $'usage: .ci/proofs_tables.py [--check] [TOP]\n'
"$top/.ci/proofs_tables.py" --chekc copy >got.out 2>got.err
judge 'another word' $? 2

# A page that is behind its list or the sources.
stale=$'docs/PROOFS.md isn\'t what docs/promises.txt and the contracts give: run .ci/proofs_tables.py\n'
tables 'a page that was changed by hand' 1 "$stale" $page 's/`more`/`most`/' --check
left 'nothing is written by --check' "$(sed 's/`more`/`most`/' page.md)"$'\n'
tables 'a promise that was changed' 1 "$stale" $list 's/Sums hold/All sums hold/' --check
tables 'a clause that is new in a whole contract' 1 "$stale" $low/steps.rt 's/ensures few {/ensures new { Sums } &/' --check
tables 'without --check it is written' 0 '' $list 's/Sums hold/All sums hold/'
left 'as the list has it' "$(sed 's/Sums hold/All sums hold/' page.md)"$'\n'
tables 'a wide row by hand' 1 "docs/PROOFS.md, line 23: a row of 201 columns, of at most 200: | a | table | by $(printf 'x%.0s' {1..43})..
" $page "s/by hand/by $(printf 'x%.0s' {1..182})/" --check
wide=$(printf 'x%.0s' {1..160})
tables 'a wide text' 1 $'docs/promises.txt, the promise of line 10: a row of 224 columns, of at most 200: break its text\n' $list "s/Sums hold/$wide/"
left 'nothing is written where something is wrong' @page.md
tables 'no place for a table' 1 $'docs/promises.txt: docs/PROOFS.md has no place for the table laws\n' $page '/table laws/d'
tables 'a place for no table' 1 $'docs/PROOFS.md: docs/promises.txt has no table law\ndocs/promises.txt: docs/PROOFS.md has no place for the table laws\n' \
    $page 's/table laws/table law/'

# What the sources don't have, or don't export.
wrong() { # NAME LINE TOLD FILE CHANGE
    tables "$1" 1 "docs/promises.txt, the promise of line $2: $3"$'\n' "$4" "$5" --check
}
wrong 'a clause of another name' 16 'Counter::count of eql_low has no clause counted; it has total, few' $low/steps.rt 's/ensures counted/ensures total/'
wrong 'a clause that is asked, and not promised' 16 'Counter::count of eql_low has no clause counted; it has few' $low/steps.rt 's/ensures counted/requires counted/'
wrong 'a law of another name' 16 'Steps of eql_low has no clause rises; it has steps_of, falls' $low/steps.rt 's/ghost rises/ghost falls/'
wrong 'a clause of no impl' 26 'Steps of Counter of eql_low has no clause own; it has steps_of, rises, more, one without a name' $low/steps.rt '/ensures own/d'
wrong 'no call' 10 'eql_low has no sums_hold' $low/laws.rt 's/sums_hold/sums_stand/'
wrong 'no call of the type' 16 'Counter of eql_low has no call count' $low/steps.rt 's/fn count/fn total/'
wrong 'no impl' 26 'eql_low has no impl of Steps for Counter' $low/steps.rt 's/impl Steps for/impl Walks for/'
wrong 'a call that is not exported' 10 "eql_low has apart, and doesn't export it" $list 's/sums_hold,/apart,/'
wrong 'a call that is exported no more' 10 "eql_low has sums_hold, and doesn't export it" $low/lib.rt 's/, sums_hold//'
wrong 'a private call' 10 "eql_low has sums_hold, and doesn't export it" $low/laws.rt 's/pub fn sums_hold/pub(crate) fn sums_hold/'
wrong 'a private call of the type' 16 "Counter::raise of eql_low isn't public" $list 's/Counter::count: counted (same, least)/Counter::raise: up/'
tables 'a private type' 1 "$(printf "docs/promises.txt, the promise of line %d: eql_low has Counter, and doesn't export it\n" 16 26)"$'\n' \
    $low/lib.rt 's/{Counter, /{/' --check
wrong 'a call of tests' 10 'eql_low has no of_tests' $list 's/sums_hold,/of_tests,/'
wrong 'a call of another crate' 26 'eql_cli has no sums_hold, which stands in eql_low' $list 's/eql_low Clone of \*/eql_cli sums_hold/'
wrong 'a type of another crate' 26 'eql_cli has no Counter, which stands in eql_low' $list 's/eql_low Clone of \*/eql_cli Clone of Counter/'
wrong 'no crate' 10 'there is no crate eql_high' $list 's/eql_low sums_hold/eql_high sums_hold/'
wrong 'no contract' 10 'sums_hold of eql_low has no clause' $low/laws.rt '0,/ensures/{/ensures/d}'
wrong 'calls of different contracts' 10 'calls with different clauses stand in one line' $low/laws.rt 's/ensures { CountsGoOn }/ensures go { Sums }/'
wrong 'no field' 16 'the clause counted of Counter::count of eql_low has no field least' crates/eql_low/specs/Counting.antt 's/pub least/pub most/'
wrong 'no definition' 10 "specs/Counting.antt of eql_low doesn't define CountsGoOn" crates/eql_low/specs/Counting.antt 's/abbrev pub CountsGoOn/abbrev CountsGoOn/'
wrong 'no file of a definition' 10 'eql_low has no file specs/Sums.antt' $list 's/`CountsGoOn` (Counting)/`CountsGoOn` (Sums)/'
wrong 'a definition without a file' 10 'no file stands behind CountsGoOn' $list 's/`CountsGoOn` (Counting)/`CountsGoOn`/'
wrong 'no file of theorems' 26 'eql_low has no file specs/Sums.antt' $list 's|specs/Counting|specs/Sums|'
wrong 'no call at all' 10 'no call carries it' $list '/sums_hold/d'
tables 'a clause of the headline in no row' 1 $'docs/promises.txt: no row names the clause new of eql_main\n' $cli/program.rt 's/ensures told/ensures new { Sums } &/' --check
tables 'no table' 1 $'docs/promises.txt: line 3: stands in no table\n' $list '/^== headline/d' --check

rm -rf copy && cp -r good copy
sed -i 's/{ Sums }/Sums/' copy/$low/laws.rt
want '' $'copy/crates/eql_low/src/laws.rt: not understood: line 7: neither a clause nor a body\n'
"$top/.ci/proofs_tables.py" copy >got.out 2>got.err
judge 'a source that is not understood' $? 1

# The lines of contracts.
lines() { # NAME SUM [CRATE..]
    cat >counted <<'END'
 lines  contracts  crate
    14          7  eql_low
     3          1  eql_cli

 lines  the 15 longest contracts
     4  crates/eql_low/src/steps.rt:19  Counter::count
     3  crates/eql_cli/src/program.rt:6  eql_main
     3  crates/eql_low/src/steps.rt:31  Counter::raise
     3  crates/eql_low/src/steps.rt:5  Steps::step
     1  crates/eql_low/src/steps.rt:39  Counter::step
     1  crates/eql_low/src/laws.rt:12  apart
     1  crates/eql_low/src/laws.rt:7  counts_go_on
     1  crates/eql_low/src/laws.rt:2  sums_hold

 lines  contracts  the sum
END
    echo "$2" >>counted
    want @counted ''
    "$top/.ci/contract_lines.py" --top good "${@:3}" >got.out 2>got.err
    judge "$1" $? 0
}
lines 'lines of contracts' '    17          8  all crates'
lines 'lines of contracts of a crate' '     3          1  eql_cli' eql_cli
want '' $'usage: .ci/contract_lines.py [--top TOP] [CRATE..]\ncontract_lines.py: error: no crate eql_high\n'
"$top/.ci/contract_lines.py" --top good eql_high >got.out 2>got.err
judge 'lines of contracts of no crate' $? 2

end
