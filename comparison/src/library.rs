//! The calls of the library as a trait, one call with everything it is given, and the proved library behind the trait.

use reference::plan::Refusal;

/// The number that a call answers (1 for yes, 0 for no or done), or the number of its refusal.
pub type Answer = Result<usize, Refusal>;

pub trait Library {
    fn judge_plan(&self, plan: &[u8]) -> Answer;
    fn read_plan(&self, text: &[u8], plan: &mut [u8]) -> Answer;
    fn write_plan(&self, plan: &[u8], text: &mut [u8]) -> Answer;
    fn read_tree(&self, text: &[u8], tree: &mut [u8]) -> Answer;
    fn write_tree(&self, tree: &[u8], text: &mut [u8]) -> Answer;
    fn check_tree(&self, plan: &[u8], tree: &[u8]) -> Answer;
    fn search(&self, plan: &[u8], tree: &mut [u8]) -> Answer;
    fn show(&self, plan: &[u8], tree: &[u8], history: &[u8], instruction: &mut [u8]) -> Answer;
    fn report(&self, plan: &[u8], tree: &[u8], history: &mut [u8], mask: u8) -> Answer;
    fn follow(&self, plan: &[u8], tree: &[u8], history: &mut [u8], calls: &[u8], steps: &mut [u8]) -> Answer;
    fn least_schedule(&self, plan: &[u8], values: u8, schedule: &mut [u8]) -> Answer;
    fn differences(&self, plan: &[u8], values: u8, table: &mut [u8]) -> Answer;
    fn screen(&self, plan: &[u8]) -> Answer;
    fn answer(&self, input: &[u8], text: &mut [u8]) -> Answer;
}

/// One call with everything it is given; a lent buffer stands here with its contents before the call.
#[derive(Clone, PartialEq, Eq, Debug)]
pub enum Case {
    JudgePlan { plan: Vec<u8> },
    ReadPlan { text: Vec<u8>, plan: Vec<u8> },
    WritePlan { plan: Vec<u8>, text: Vec<u8> },
    ReadTree { text: Vec<u8>, tree: Vec<u8> },
    WriteTree { tree: Vec<u8>, text: Vec<u8> },
    CheckTree { plan: Vec<u8>, tree: Vec<u8> },
    Search { plan: Vec<u8>, tree: Vec<u8> },
    Show { plan: Vec<u8>, tree: Vec<u8>, history: Vec<u8>, instruction: Vec<u8> },
    Report { plan: Vec<u8>, tree: Vec<u8>, history: Vec<u8>, mask: u8 },
    Follow { plan: Vec<u8>, tree: Vec<u8>, history: Vec<u8>, calls: Vec<u8>, steps: Vec<u8> },
    LeastSchedule { plan: Vec<u8>, values: u8, schedule: Vec<u8> },
    Differences { plan: Vec<u8>, values: u8, table: Vec<u8> },
    Screen { plan: Vec<u8> },
    Answer { input: Vec<u8>, text: Vec<u8> },
}

/// A buffer of a case: its name and its bytes.
pub type Part<'a> = (&'static str, &'a [u8]);

impl Case {
    pub fn name(&self) -> &'static str {
        match self {
            Case::JudgePlan { .. } => "JudgePlan",
            Case::ReadPlan { .. } => "ReadPlan",
            Case::WritePlan { .. } => "WritePlan",
            Case::ReadTree { .. } => "ReadTree",
            Case::WriteTree { .. } => "WriteTree",
            Case::CheckTree { .. } => "CheckTree",
            Case::Search { .. } => "Search",
            Case::Show { .. } => "Show",
            Case::Report { .. } => "Report",
            Case::Follow { .. } => "Follow",
            Case::LeastSchedule { .. } => "LeastSchedule",
            Case::Differences { .. } => "Differences",
            Case::Screen { .. } => "Screen",
            Case::Answer { .. } => "Answer",
        }
    }

    /// All buffers of the call, in the order of its parameters.
    pub fn parts(&self) -> Vec<Part<'_>> {
        match self {
            Case::JudgePlan { plan } | Case::Screen { plan } => vec![("plan", plan)],
            Case::ReadPlan { text, plan } => vec![("text", text), ("plan", plan)],
            Case::WritePlan { plan, text } => vec![("plan", plan), ("text", text)],
            Case::ReadTree { text, tree } => vec![("text", text), ("tree", tree)],
            Case::WriteTree { tree, text } => vec![("tree", tree), ("text", text)],
            Case::CheckTree { plan, tree } | Case::Search { plan, tree } => vec![("plan", plan), ("tree", tree)],
            Case::Show { plan, tree, history, instruction } => {
                vec![("plan", plan), ("tree", tree), ("history", history), ("instruction", instruction)]
            }
            Case::Report { plan, tree, history, .. } => vec![("plan", plan), ("tree", tree), ("history", history)],
            Case::Follow { plan, tree, history, calls, steps } => {
                vec![("plan", plan), ("tree", tree), ("history", history), ("calls", calls), ("steps", steps)]
            }
            Case::LeastSchedule { plan, schedule, .. } => vec![("plan", plan), ("schedule", schedule)],
            Case::Differences { plan, table, .. } => vec![("plan", plan), ("table", table)],
            Case::Answer { input, text } => vec![("input", input), ("text", text)],
        }
    }

    /// The single byte that some calls are given.
    pub fn byte(&self) -> Option<(&'static str, u8)> {
        match self {
            Case::Report { mask, .. } => Some(("mask", *mask)),
            Case::LeastSchedule { values, .. } | Case::Differences { values, .. } => Some(("values", *values)),
            _ => None,
        }
    }

    /// The call, made over these buffers: the parts of the case, wherever they were put.
    pub fn perform(&self, library: &dyn Library, lent: &mut [&mut [u8]]) -> Answer {
        match (self, lent) {
            (Case::JudgePlan { .. }, [plan]) => library.judge_plan(plan),
            (Case::ReadPlan { .. }, [text, plan]) => library.read_plan(text, plan),
            (Case::WritePlan { .. }, [plan, text]) => library.write_plan(plan, text),
            (Case::ReadTree { .. }, [text, tree]) => library.read_tree(text, tree),
            (Case::WriteTree { .. }, [tree, text]) => library.write_tree(tree, text),
            (Case::CheckTree { .. }, [plan, tree]) => library.check_tree(plan, tree),
            (Case::Search { .. }, [plan, tree]) => library.search(plan, tree),
            (Case::Show { .. }, [plan, tree, history, instruction]) => library.show(plan, tree, history, instruction),
            (Case::Report { mask, .. }, [plan, tree, history]) => library.report(plan, tree, history, *mask),
            (Case::Follow { .. }, [plan, tree, history, calls, steps]) => {
                library.follow(plan, tree, history, calls, steps)
            }
            (Case::LeastSchedule { values, .. }, [plan, schedule]) => library.least_schedule(plan, *values, schedule),
            (Case::Differences { values, .. }, [plan, table]) => library.differences(plan, *values, table),
            (Case::Screen { .. }, [plan]) => library.screen(plan),
            (Case::Answer { .. }, [input, text]) => library.answer(input, text),
            (_, lent) => panic!("{} buffers for {}", lent.len(), self.name()),
        }
    }
}

/// The proved library, through its safe wrapper.
pub struct Proved;

fn number(answer: Result<usize, tureenlark::Refusal>) -> Answer {
    answer.map_err(|refusal| refusal.number())
}

fn yes(answer: Result<(), tureenlark::Refusal>) -> Answer {
    number(answer.map(|()| 1))
}

fn truth(answer: Result<bool, tureenlark::Refusal>) -> Answer {
    number(answer.map(usize::from))
}

impl Library for Proved {
    fn judge_plan(&self, plan: &[u8]) -> Answer {
        yes(tureenlark::judge_plan(plan))
    }

    fn read_plan(&self, text: &[u8], plan: &mut [u8]) -> Answer {
        yes(tureenlark::read_plan(text, plan))
    }

    fn write_plan(&self, plan: &[u8], text: &mut [u8]) -> Answer {
        number(tureenlark::write_plan(plan, text))
    }

    fn read_tree(&self, text: &[u8], tree: &mut [u8]) -> Answer {
        number(tureenlark::read_tree(text, tree))
    }

    fn write_tree(&self, tree: &[u8], text: &mut [u8]) -> Answer {
        number(tureenlark::write_tree(tree, text))
    }

    fn check_tree(&self, plan: &[u8], tree: &[u8]) -> Answer {
        yes(tureenlark::check_tree(plan, tree))
    }

    fn search(&self, plan: &[u8], tree: &mut [u8]) -> Answer {
        number(tureenlark::search(plan, tree))
    }

    fn show(&self, plan: &[u8], tree: &[u8], history: &[u8], instruction: &mut [u8]) -> Answer {
        let told = tureenlark::show(plan, tree, history, instruction);
        truth(told.map(|told| matches!(told, tureenlark::Told::Instruct)))
    }

    fn report(&self, plan: &[u8], tree: &[u8], history: &mut [u8], mask: u8) -> Answer {
        yes(tureenlark::report(plan, tree, history, mask))
    }

    fn follow(&self, plan: &[u8], tree: &[u8], history: &mut [u8], calls: &[u8], steps: &mut [u8]) -> Answer {
        number(tureenlark::follow(plan, tree, history, calls, steps))
    }

    fn least_schedule(&self, plan: &[u8], values: u8, schedule: &mut [u8]) -> Answer {
        truth(tureenlark::least_schedule(plan, values, schedule))
    }

    fn differences(&self, plan: &[u8], values: u8, table: &mut [u8]) -> Answer {
        truth(tureenlark::differences(plan, values, table))
    }

    fn screen(&self, plan: &[u8]) -> Answer {
        truth(tureenlark::screen(plan))
    }

    fn answer(&self, input: &[u8], text: &mut [u8]) -> Answer {
        number(tureenlark::answer(input, text))
    }
}
