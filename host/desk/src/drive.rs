//! Running a hart over any number of steps: calls chained one after the other, traps served, followed or not, and the
//! state before the last step found again, so that it can be explained.

use crate::environment::{Environment, Served, Write};
use crate::failure::Failure;
use crate::map::PageMap;
use crate::notes::Watch;
use crate::past::Past;
use crate::profile::{Counts, Made, Profile};
use crate::progress::Progress;
use crate::refusal;
use crate::state::State;
use crate::steps::{Before, Show, Shown};
use crate::symbols::{Place, Symbols};
use crate::window::{Start, Window};
use sporhulma::{Answer, Hart, MOST_STEPS};

/// How far to go.
#[derive(Clone, Copy)]
pub struct Limits {
    /// None: up to the end of the program.
    pub steps: Option<u64>,
    /// How many traps to go on after; `u64::MAX` for all.
    pub follow: u64,
}

#[derive(Clone, Copy, Debug, PartialEq)]
pub enum Stop {
    /// All steps are done.
    Steps,
    Trap,
    /// A trap that was followed left the hart exactly as it was: it would trap so for ever.
    Stuck,
    /// A step without a trap left the hart exactly as it was: it would do so for ever.
    Still,
    /// The program asked its environment to end it, with this value.
    Exit(i32),
    /// The user ended it.
    Interrupted,
}

/// Where a run ended.
pub struct End {
    pub stop: Stop,
    pub count: u64,
    pub followed: u64,
    /// The cause of the last step's trap, if it trapped.
    pub cause: Option<u64>,
    /// The state before the last step; none if there was no step.
    pub before: Option<State>,
    pub after: State,
    /// How many steps were shown.
    pub shown: u64,
    /// What was seen of the protections that are on.
    pub watch: Watch,
    /// Where the steps were made, if that was asked for.
    pub profile: Option<Counts>,
    pub environment: Environment,
}

/// A run on its way.
pub struct Drive<'a> {
    state: State,
    map: &'a PageMap,
    limits: Limits,
    count: u64,
    followed: u64,
    /// The given word that the last call's step took.
    given: Option<u32>,
    shown: u64,
    watch: Watch,
    profile: Option<Profile<'a>>,
    environment: Environment,
}

/// How far to go at full speed.
#[derive(Clone, Copy)]
enum Until {
    End,
    /// So many steps from the start of the run.
    Step(u64),
    Place(Place),
}

/// How a run ended: why, the state before the last step, and that step's answer.
struct Ended(Stop, Option<State>, Answer);

/// What comes after a call.
enum Next {
    On,
    /// The environment served a call and wrote this.
    Served(Vec<Write>),
    End(Stop),
}

impl<'a> Drive<'a> {
    /// Asks the hart whether it takes this state at all (a run of no steps), and begins.
    pub fn start(
        state: State,
        map: &'a PageMap,
        limits: Limits,
        environment: Environment,
    ) -> Result<Drive<'a>, Failure> {
        let mut drive = Drive {
            watch: Watch::new(&state.hart, map),
            state,
            map,
            limits,
            count: 0,
            followed: 0,
            given: None,
            shown: 0,
            profile: None,
            environment,
        };
        drive.call(0)?;
        Ok(drive)
    }

    /// Counts where each step is made.
    pub fn profiled(mut self, symbols: &'a Symbols) -> Drive<'a> {
        self.profile = Some(Profile::new(&self.state, symbols));
        self
    }

    /// Runs to the end: step by step where the window asks for it, and else in as few calls as possible.
    pub fn run(
        mut self,
        window: &Window,
        progress: &Progress,
        show: &mut Show,
    ) -> Result<End, Failure> {
        let keep = match window {
            Window::Last(steps) => *steps,
            _ => 0,
        };
        let (until, steps) = match window {
            Window::From(Start::Step(step), steps) => (Until::Step(*step - 1), *steps),
            Window::From(Start::Place(_, place), steps) => (Until::Place(*place), *steps),
            Window::None | Window::Last(_) => (Until::End, 0),
        };
        let mut past = Past::new(&self.state, keep);
        let mut ended = self.go(until, &mut past, progress)?;
        if ended.is_none() {
            ended = self.steps(steps, progress, show)?;
        }
        if ended.is_none() && self.left() > 0 {
            past = Past::new(&self.state, 0);
            ended = self.go(Until::End, &mut past, progress)?;
        }
        if keep > 0 {
            self.shown = past.show(self.map, (&self.state, self.count), show)?;
        }
        Ok(self.end(ended))
    }

    /// Goes on in as few calls as possible, to the end or as far as asked; none where it has not ended there.
    fn go(
        &mut self,
        until: Until,
        past: &mut Past,
        progress: &Progress,
    ) -> Result<Option<Ended>, Failure> {
        let (mut told, mut long) = (self.count, false);
        loop {
            // A profile sees every step; and behind a long call a single step shows whether the hart still moves.
            let single = long || self.profile.is_some();
            let most = if single { 1 } else { MOST_STEPS };
            let most = most.min(self.left()).min(self.up_to(until));
            if most == 0 {
                return Ok(None);
            }
            past.renew(&self.state);
            let hart = self.state.hart;
            let answer = self.watched(most)?;
            long = answer.count == MOST_STEPS;
            past.stepped(answer.count);
            match self.next(&hart, answer)? {
                Next::On => (),
                Next::Served(writes) => past.served(&self.state.hart, writes),
                Next::End(stop) => {
                    let before = Some(past.before_last(self.map)?);
                    return Ok(Some(Ended(stop, before, answer)));
                }
            }
            if self.count - told >= TOLD {
                told = self.count;
                progress.tick(self.count, &self.state);
                if progress.interrupted() {
                    return Ok(Some(Ended(Stop::Interrupted, None, NOTHING)));
                }
            }
        }
    }

    /// Goes on step by step, so many at most, and shows each; none where it has not ended then.
    fn steps(
        &mut self,
        most: u64,
        progress: &Progress,
        show: &mut Show,
    ) -> Result<Option<Ended>, Failure> {
        let mut before = Before::new(&self.state);
        let first = self.count;
        while self.left() > 0 && self.count - first < most {
            before.begins(&self.state);
            let answer = self.watched(1)?;
            before.show(self.count, &self.state, answer, self.map, show)?;
            self.shown += 1;
            match self.next(&before.state.hart, answer)? {
                Next::On => (),
                Next::Served(writes) => {
                    show(Shown::Served(&self.state))?;
                    before.served(&writes);
                }
                Next::End(stop) => {
                    before.check(&self.state)?;
                    return Ok(Some(Ended(stop, Some(before.state), answer)));
                }
            }
            before.ends(&self.state);
            progress.tick(self.count, &self.state);
            if progress.interrupted() {
                return Ok(Some(Ended(Stop::Interrupted, None, NOTHING)));
            }
        }
        before.check(&self.state)?;
        Ok(None)
    }

    /// How many steps can be made at most in one call without going too far; 0 where it is reached.
    fn up_to(&mut self, until: Until) -> u64 {
        match until {
            Until::End => u64::MAX,
            Until::Step(count) => count.saturating_sub(self.count),
            // Where the hart is can be seen between calls only: so it goes no further than is known from the words ahead.
            Until::Place(place) => {
                let way = place
                    .address(self.state.space())
                    .wrapping_sub(self.state.pc());
                match way {
                    0 => 0,
                    way => self.watch.line(&self.state, self.map).min(way.div_ceil(4)),
                }
            }
        }
    }

    /// Steps that may still be made.
    fn left(&self) -> u64 {
        self.limits.steps.unwrap_or(u64::MAX) - self.count
    }

    fn stops_at_trap(&self) -> bool {
        self.followed >= self.limits.follow
    }

    /// At most so many steps in one call, or fewer where the watch looks at what comes.
    fn watched(&mut self, most: u64) -> Result<Answer, Failure> {
        let Some(ahead) = self.watch.ahead(&self.state, self.map) else {
            return self.call(most);
        };
        let answer = self.call(ahead.steps.min(most))?;
        self.watch.saw(&ahead, answer);
        Ok(answer)
    }

    /// One call of the proved run.
    fn call(&mut self, budget: u64) -> Result<Answer, Failure> {
        self.given = self.state.given;
        let answer = self.state.steps(self.map, budget);
        if answer.refusal != 0 {
            let length = self.state.mem.len() as u64;
            let words = &self.map.words;
            let why = refusal::explain(answer.refusal, &self.state.hart, length, words, budget);
            return Err(Failure::Input(why));
        }
        self.count += answer.count;
        Ok(answer)
    }

    /// What comes after a call that began with `hart`.
    fn next(&mut self, hart: &Hart, answer: Answer) -> Result<Next, Failure> {
        let next = self.decide(hart, answer)?;
        if let Some(profile) = &mut self.profile {
            let made = Made {
                before: hart,
                after: &self.state,
                answer,
                given: self.given,
                served: matches!(next, Next::Served(_)),
                last: matches!(next, Next::End(_)),
            };
            profile.saw(&made, self.map);
        }
        Ok(next)
    }

    fn decide(&mut self, hart: &Hart, answer: Answer) -> Result<Next, Failure> {
        // A step that fetches is a function of hart, memory and map, and neither a trap nor a step that leaves pc writes memory.
        let same = answer.count == 1 && self.given.is_none() && *hart == self.state.hart;
        if answer.trapped {
            match self
                .environment
                .serve(&mut self.state, self.map, answer.cause)?
            {
                Served::Returned(writes) => return Ok(Next::Served(writes)),
                Served::Exit(value) => return Ok(Next::End(Stop::Exit(value))),
                Served::No if self.stops_at_trap() => return Ok(Next::End(Stop::Trap)),
                Served::No if same => return Ok(Next::End(Stop::Stuck)),
                Served::No => self.followed += 1,
            }
        } else if same && self.limits.steps.is_none() {
            return Ok(Next::End(Stop::Still));
        }
        Ok(match self.left() {
            0 => Next::End(Stop::Steps),
            _ => Next::On,
        })
    }

    /// The end; without one it was the last of the steps.
    fn end(self, ended: Option<Ended>) -> End {
        let Ended(stop, before, last) = ended.unwrap_or(Ended(Stop::Steps, None, NOTHING));
        let cause = last.trapped.then_some(last.cause);
        End {
            stop,
            count: self.count,
            followed: self.followed,
            cause,
            before,
            after: self.state,
            shown: self.shown,
            watch: self.watch,
            profile: self.profile.map(Profile::done),
            environment: self.environment,
        }
    }
}

/// Steps between two looks at the clock.
const TOLD: u64 = 100_000;

/// The answer where no step was made.
const NOTHING: Answer = Answer {
    refusal: 0,
    count: 0,
    trapped: false,
    cause: 0,
};
