//! Stand-in for volang's debug_info: what optimize.rs and pc_map.rs use of it. The lines of document 02's L3 are its
//! entries, which `relocate_debug` moves.

#[derive(Clone, Debug, Default)]
pub struct DebugInfo {
    pub funcs: Funcs,
    pub inline_sources: InlineSources,
}

/// The entries of the one function under work, where they are wanted.
#[derive(Clone, Debug, Default)]
pub struct Funcs {
    pub under_work: Option<FuncDebugInfo>,
}

impl Funcs {
    pub fn get_mut(&mut self, _function_id: usize) -> Option<&mut FuncDebugInfo> {
        self.under_work.as_mut()
    }
}

#[derive(Clone, Debug, Default)]
pub struct FuncDebugInfo {
    pub entries: Vec<DebugEntry>,
}

#[derive(Clone, Copy, Debug)]
pub struct DebugEntry {
    pub pc: u32,
    pub line: u32,
}

impl FuncDebugInfo {
    /// Stably, by place: "Stable sorting preserves the last, most specific location when removed ranges
    /// collapse", says volang.
    pub fn sort(&mut self) {
        self.entries.sort_by_key(|entry| entry.pc);
    }
}

/// The sources of the one function under work, where they are wanted.
#[derive(Clone, Debug, Default)]
pub struct InlineSources {
    pub under_work: Option<InlineFunctionSources>,
}

impl InlineSources {
    pub fn function_mut(&mut self, _function_id: u32) -> Option<&mut InlineFunctionSources> {
        self.under_work.as_mut()
    }
}

#[derive(Clone, Debug, Default)]
pub struct InlineFunctionSources {
    pub entries: Vec<InlineSourceEntry>,
}

/// "A chain entry is attached to an exact instruction", says volang: `frame` has the instruction's place in
/// the given unit, so that the Rust's own relocation carries the old places.
#[derive(Clone, Copy, Debug)]
pub struct InlineSourceEntry {
    pub pc: u32,
    pub frame: u32,
}
