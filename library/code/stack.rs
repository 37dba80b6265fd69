//! How deep the stack becomes: within a function by following its instructions, and over all that
//! it calls.

use crate::assembly::{Function, Module};
use crate::processor::{Next, Processor};

/// The most bytes that a function's own code takes, and what it has taken where it calls.
struct Frame {
    deepest: i64,
    calls: Vec<(String, i64)>,
}

/// The functions of an archive. A call is resolved in the caller's own object first.
pub struct Archive {
    pub processor: Processor,
    pub modules: Vec<Module>,
}

impl Archive {
    /// The module that has the function which `name` names in `module`.
    pub fn resolve(&self, module: usize, name: &str) -> Option<usize> {
        if self.modules[module].functions.contains_key(name) {
            return Some(module);
        }
        self.modules
            .iter()
            .position(|other| other.exported.contains(name) && other.functions.contains_key(name))
    }

    /// The bytes of stack that a call of the function takes, of functions elsewhere the return
    /// address alone. `above` are the functions that it is called from.
    pub fn stack(&self, module: usize, name: &str, above: &[&str]) -> Result<i64, String> {
        let Some(home) = self.resolve(module, name) else {
            return Ok(self.processor.return_address());
        };
        if above.contains(&name) {
            return Err(format!("{name} is called from itself, by {}", above.join(", ")));
        }
        let frame = self.frame(home, name).map_err(|why| format!("{name}: {why}"))?;
        let path = [above, &[name]].concat();
        let mut deepest = frame.deepest;
        for (called, taken) in &frame.calls {
            deepest = deepest.max(taken + self.stack(home, called, &path)?);
        }
        Ok(deepest)
    }

    /// Follows every way through a function. The stack pointer must be at one depth where two ways
    /// meet, and back where it was at their ends: so no loop moves it.
    fn frame(&self, module: usize, name: &str) -> Result<Frame, String> {
        let module = &self.modules[module];
        let function = &module.functions[name];
        let entry = self.processor.return_address();
        let mut frame = Frame { deepest: entry, calls: Vec::new() };
        let mut depths: Vec<Option<i64>> = vec![None; function.code.len()];
        let mut open = vec![(0, entry)];
        while let Some((at, depth)) = open.pop() {
            let known = depths.get_mut(at).ok_or("it goes on past its end")?;
            let instruction = &function.code[at];
            let wrong = |why: &str| format!("`{}` {why}", instruction.text);
            if let Some(known) = known {
                if *known != depth {
                    return Err(wrong(&format!("at depths {known} and {depth}")));
                }
                continue;
            }
            *known = Some(depth);
            let grows = self.processor.grows(instruction);
            let after = depth + grows.ok_or(wrong("moves by what is not said"))?;
            frame.deepest = frame.deepest.max(after);
            let next = self.processor.next(instruction);
            if matches!(next, Next::Back | Next::Instead(_)) && after != entry {
                return Err(wrong(&format!("at depth {after}")));
            }
            let ways = ways(module, function, at, &next).ok_or(wrong("goes who knows where"))?;
            open.extend(ways.into_iter().map(|way| (way, after)));
            match next {
                Next::Call(called) => frame.calls.push((called, after)),
                Next::Instead(called) => frame.calls.push((called, 0)),
                _ => {}
            }
        }
        Ok(frame)
    }
}

/// The instructions of the function that may follow the one at `at`, or nothing where that is not
/// known.
fn ways(module: &Module, function: &Function, at: usize, next: &Next) -> Option<Vec<usize>> {
    let place = |label: &String| function.labels.get(label).copied();
    match next {
        Next::On | Next::Call(_) => Some(vec![at + 1]),
        Next::To(label) => Some(vec![place(label)?]),
        Next::OnOrTo(label) => Some(vec![at + 1, place(label)?]),
        Next::Table => {
            let ways: Vec<usize> = module.data.iter().filter_map(place).collect();
            (!ways.is_empty()).then_some(ways)
        }
        Next::Unknown => None,
        Next::Instead(_) | Next::Back | Next::Nowhere => Some(Vec::new()),
    }
}
