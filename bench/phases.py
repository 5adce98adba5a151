"""A small program that loads the theories of the current directory, runs their commands and then their proofs, and tells what each takes."""
import os
import subprocess
import tempfile

from building import build

ROUNDS = 7
PROGRAM = r"""//! Loads the theories of the current directory, runs their commands and then their proofs, and prints the microseconds of each, and how many lemmas there are and how many of them are proved.
#![tactic(auto)]

ghost use Rattle.std.specs.Prelude.{◌≡◌, IfOk};
ghost use Rattle.pure_text.specs.Lists.{Each};
ghost use Rattle.pure_method.specs.Outcome.{IsProvable};
ghost use Rattle.pure_session.specs.Waiting.{all_loaded};
ghost use Rattle.pure_session_laws.specs.Loaded.{IsLoadedSession};

use pure_declare::Duty;
use pure_io::DirLibrary;
use pure_method::{Outcome, prove};
use pure_session::{Session, load};
use pure_typ::NamesByBase;
use pure_theory_run::{Checker, Statements};
use std::alloc::Global;
use std::rt::{Clock, Files};
use std::test::Fail;
use std::thread::Threads;
use std::time::Instant;

fn loaded<R: Files + Print + AllocGlobal + Threads + Sync>(rt: &R) -> Result<Session, Fail>
    ensures { IfOk result (λ s. IsLoadedSession s.names (all_loaded s.theories.items)) }
{
    let mut library = DirLibrary::make();
    match load(rt, rt.alloc(), &mut library, rt, 1) {
        Ok(session) => {
            session.names.are_session_texts();
            Ok(session)
        }
        Err(_) => Err("not loaded".into()),
    }
}

fn checker(alloc: Global, session: Session) -> Result<Checker, Fail>
    requires { IsLoadedSession session.names (all_loaded session.theories.items) }
    ensures { IfOk result (λ c. IsLoadedSession c.texts c.theories) }
{
    let Session { names, theories, .. } = session;
    Ok(Checker::make(alloc, names, theories)?)
}

fn declared(checker: &Checker) -> Result<Statements, Fail>
    requires { IsLoadedSession checker.now.texts checker.now.theories }
    ensures { IfOk result (λ s. Each (IsProvable checker.now.texts) s.duties.items) }
{
    Ok(checker.statements()?)
}

fn counted(alloc: Global, names: &NamesByBase, duties: Vec<Duty>) -> Result<u32, Fail>
    requires { Each (IsProvable names.now) duties.items }
{
    let mut count: u32 = 0;
    for duty in duties {
        if let Outcome::Proved { .. } = prove(alloc, names, &duty)? {
            count = count.wrapping_add(1);
        }
    }
    Ok(count)
}

fn proved(alloc: Global, checker: &Checker, duties: Vec<Duty>) -> Result<u32, Fail>
    requires { Each (IsProvable checker.now.texts) duties.items }
{
    let names = checker.names();
    counted(alloc, names, duties)
}

fn prove_all<R: Print + Clock + AllocGlobal>(
    rt: &R,
    checker: &Checker,
    duties: Vec<Duty>,
) -> Result<(), Fail>
    requires { Each (IsProvable checker.now.texts) duties.items }
{
    let start = Instant::now(rt)?;
    let all = duties.len();
    let proved = proved(rt.alloc(), checker, duties)?;
    let spent = start.elapsed(rt)?.as_micros();
    println!(rt; "{spent} {all} {proved}")?;
    Ok(())
}

fn declare_all<R: Print + Clock + AllocGlobal>(rt: &R, session: Session) -> Result<(), Fail>
    requires { IsLoadedSession session.names (all_loaded session.theories.items) }
{
    let start = Instant::now(rt)?;
    let checker = checker(rt.alloc(), session)?;
    let Statements { duties, .. } = declared(&checker)?;
    let spent = start.elapsed(rt)?.as_micros();
    println!(rt; "{spent}")?;
    prove_all(rt, &checker, duties)
}

fn main(rt: HostRuntime) -> Result<(), Fail> {
    let start = Instant::now(&rt)?;
    let session = loaded(&rt)?;
    let spent = start.elapsed(&rt)?.as_micros();
    println!(rt; "{spent}")?;
    declare_all(&rt, session)
}
"""
LOADED = """use Rattle.pure_check.proofs.AnswerLemmas.{loaded_session}
use Rattle.bench_phases.proofs.loaded.Goals as goal

pub returns-in-Ok : goal.returns-in-Ok
returns-in-Ok g c = loaded_session _ _ _ _ _ c.in-Ok.ensures.told c.in-Ok.ensures.named c.are_session_texts.ensures
"""
CHECKER = """use Rattle.std.proofs.Common.{subst, sym}
use Rattle.pure_theory_run.specs.Checked.{Checked}
use Rattle.pure_session_laws.specs.Loaded.{IsLoadedSession}
use Rattle.bench_phases.proofs.checker.Goals as goal

pub returns : goal.returns
returns c = subst (λ (C : Checked). IsLoadedSession C.texts C.theories) (sym c.in_ok-make.ensures) c.requires
"""
DECLARED = """use Rattle.std.proofs.Common.{[], subst, sym}
use Rattle.pure_text.specs.Lists.{Each}
use Rattle.pure_method.specs.Outcome.{IsProvable}
use Rattle.pure_table.proofs.PrintedLaws.{said_are_statements}
use Rattle.pure_table.proofs.DerivedLaws.{lemmas_provable}
use Rattle.bench_phases.proofs.declared.Goals as goal

pub returns : goal.returns
returns c =
    let texts = c.args.checker.now.texts in
    let theories = c.args.checker.now.theories in
    let notes = said_are_statements texts theories _ _ c.in_ok-statements.ensures in
    subst (Each (IsProvable texts)) (sym notes.2) (lemmas_provable (record { names = texts; theories = theories; refused = []; files = 0 }) c.requires notes.0 notes.1)
"""
COUNTED = """use Rattle.std.specs.Vec.Iter.{into_iter_items}
use Rattle.pure_text.specs.Lists.{Each}
use Rattle.pure_method.specs.Outcome.{IsProvable}
use Rattle.bench_phases.proofs.counted.Given as goal

abbrev pub invariant-loop-duty : goal.invariant-loop-duty
invariant-loop-duty l = Each (IsProvable l.names) (into_iter_items l.duty-iterator)
"""
PROVED = """use Rattle.std.proofs.Common.{ℕ, List, subst, sym}
use Rattle.pure_text.specs.Lists.{Each}
use Rattle.pure_method.specs.Outcome.{IsProvable}
use Rattle.bench_phases.proofs.proved.Goals as goal

pub counted-requires : goal.counted-requires
counted-requires c = subst (λ (texts : List (List ℕ)). Each (IsProvable texts) c.args.duties.items) (sym c.names-names.ensures.value) c.requires
"""
CRATES = ["pure_check", "pure_declare", "pure_io", "pure_method", "pure_session_laws", "pure_session", "pure_table", "pure_text", "pure_typ", "pure_theory_run"]


def theory(front, commands):
    """The text of a theory, a command on each line."""
    return "\n".join([front, *commands, "end\n"])


def program(folder):
    """Builds the program in the folder."""
    answers = {"loaded": LOADED, "checker": CHECKER, "declared": DECLARED, "proved": PROVED}
    files = {"src/main.rt": PROGRAM, "specs/Lib.antt": "", "proofs/Lib.antt": "", "stdin": ""}
    files.update({f"proofs/{name}/Answers.antt": text for name, text in answers.items()})
    files["proofs/counted/Invariants.antt"] = COUNTED
    return build(folder, "bench_phases", CRATES, files, [])


class Cost:
    """The least microseconds of some runs on a theory and on what it imports: of loading, of commands, of proofs; and how many lemmas there are and how many are proved."""

    def __init__(self, built, before, commands):
        texts = {"B": theory("theory B begin", before), "T": theory("theory T imports B begin", commands)}
        with tempfile.TemporaryDirectory() as folder:
            for name, text in texts.items():
                with open(os.path.join(folder, name + ".thy"), "w") as out:
                    out.write(text)
            runs = [self.run(built, folder) for _ in range(ROUNDS)]
        self.load, self.commands, self.proofs = (min(run[place] for run in runs) for place in range(3))
        self.lemmas, self.proved = runs[0][3:]

    @staticmethod
    def run(built, folder):
        """The figures of one run."""
        return [int(word) for word in subprocess.run([built], cwd=folder, stdout=subprocess.PIPE, check=True).stdout.split()]
