//! What may be wrong with a world.

#[derive(Clone, Copy)]
pub enum Fault {
    Nodes,
    Version,
    Ring,
    Pieces,
    Misplaced,
    Held,
    TwoFirm,
    LostFirm,
    TwoSettled,
    MissingFirm,
    Stranger,
    Answered,
    WrongAnswer,
    Dump,
    PlanRefused,
    Unseen,
    Unsettled,
    Undelivered,
    Outstanding,
    Inexact,
    Shown,
    Letters,
}

impl Fault {
    pub fn words(self) -> &'static str {
        match self {
            Fault::Nodes => "the nodes aren't those of the silos that live",
            Fault::Version => "a silo has seen another version than it was shown",
            Fault::Ring => "a ring isn't that of its view, sorted anew",
            Fault::Pieces => "a silo's pieces don't have what it owns",
            Fault::Misplaced => "an entry lies in a piece of other hashes, or is of no grain",
            Fault::Held => "a silo holds an activation of no grain",
            Fault::TwoFirm => "a grain is firm on two silos",
            Fault::LostFirm => "a firm activation is gone that nobody closed",
            Fault::TwoSettled => "two silos have a hash settled",
            Fault::MissingFirm => "a settled piece lacks a firm activation",
            Fault::Stranger => "a settled piece has an entry that no silo holds",
            Fault::Answered => "what isn't settled was answered",
            Fault::WrongAnswer => "a settled piece answers something else than its entry",
            Fault::Dump => "the dump isn't judged right",
            Fault::PlanRefused => "an event of a quiet end is refused",
            Fault::Unseen => "in a quiet end a silo hasn't seen the current view",
            Fault::Unsettled => "after a round of a quiet end a range isn't settled",
            Fault::Undelivered => "after a round of a quiet end a message is still to come",
            Fault::Outstanding => "after a quiet end an activation isn't firm, or a silo waits for an answer",
            Fault::Inexact => "after a quiet end the entries aren't just the firm activations, each at its owner",
            Fault::Shown => "after a quiet end something else is shown than that all has come back",
            Fault::Letters => "a quiet end took more messages than it may",
        }
    }
}
