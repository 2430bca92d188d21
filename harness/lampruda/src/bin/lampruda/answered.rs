//! The answer of one pass or of the cleaning.

use lampruda::Workspace;
use unit::Answer;

pub struct Answered {
    pub answer: Answer,
    /// The number of the last pass run.
    pub passes: u32,
}

impl Answered {
    pub fn new(workspace: &mut Workspace, bytes: &[u8], clean: bool) -> Self {
        if clean {
            let cleaned = workspace.clean(bytes);
            Self { answer: cleaned.answer.into(), passes: cleaned.passes }
        } else {
            Self { answer: workspace.pass(bytes).into(), passes: 1 }
        }
    }
}
