//! Programs that patch themselves, for a run that remembers decoded words by pc and translated pages: a store has to empty what it makes
//! wrong, and these programs are to find one that does not.
//!
//! `plan` says how a program runs, `pages` has its memory and map; `writer` lays its words out, with the patches of `sites` and `twice`, the
//! changes of `settings` and the words of `words`, and in half of the programs with what `late` has for the fast path of a run, which begins
//! after 1,024 steps; `make` puts a case together. `check` gives each call to both simulators whole and in two
//! parts, `store` says what a step wrote, and `seen` counts which patches came to be run, by the `sorts` that there are.

pub mod check;
mod late;
pub mod make;
mod pages;
mod plan;
pub mod seen;
mod settings;
mod sites;
mod sorts;
pub mod store;
mod twice;
mod words;
mod writer;
