//! The gates beneath a literal, numbered from 0 on without gaps.

/// 2 × variable, plus 1 if it is inverted.
pub type Literal = u32;

/// Variables before the first gate: the constant false, then the bits of 32 registers.
pub const FIRST_GATE: u32 = 1 + 32 * 128;

/// No number.
pub const NONE: u32 = u32::MAX;

pub fn variable(literal: Literal) -> usize {
    (literal >> 1) as usize
}

/// Variable 0 is the constant false; operands come before their gate.
pub struct Cone {
    /// The graph's number of each variable, ascending.
    names: Vec<u32>,
    /// Literals of the cone; NONE for what is no gate.
    operands: Vec<[Literal; 2]>,
    pub goal: Literal,
}

impl Cone {
    /// Word k of `gates` is gate k: its left literal, and 2^32 times its right one. Operands come before their gate.
    pub fn of(gates: &[u64], goal: Literal) -> Self {
        let top = variable(goal);
        let operands = |v: usize| v.checked_sub(FIRST_GATE as usize).map(|k| [gates[k] as u32, (gates[k] >> 32) as u32]);
        let mut numbers = vec![NONE; top + 1];
        (numbers[0], numbers[top]) = (0, 0);
        for v in (0..=top).rev().filter(|&v| v >= FIRST_GATE as usize) {
            if numbers[v] != NONE {
                operands(v).into_iter().flatten().for_each(|operand| numbers[variable(operand)] = 0);
            }
        }
        let mut cone = Self { names: Vec::new(), operands: Vec::new(), goal: 0 };
        for v in 0..=top {
            if numbers[v] == NONE {
                continue;
            }
            let of = |literal: Literal| 2 * numbers[variable(literal)] + (literal & 1);
            let operands = operands(v).map_or([NONE; 2], |operands| operands.map(of));
            numbers[v] = cone.names.len() as u32;
            cone.names.push(v as u32);
            cone.operands.push(operands);
        }
        cone.goal = 2 * numbers[top] + (goal & 1);
        cone
    }

    pub fn len(&self) -> usize {
        self.names.len()
    }

    /// The operands of a gate; None for the constant and for a bit of a register.
    pub fn operands(&self, v: usize) -> Option<[Literal; 2]> {
        let operands = self.operands[v];
        (operands[0] != NONE).then_some(operands)
    }

    /// A literal in the graph's numbers.
    pub fn name(&self, literal: Literal) -> Literal {
        2 * self.names[variable(literal)] + (literal & 1)
    }

    /// The hint that cites a clause of a gate.
    pub fn cite(&self, v: usize, clause: u32) -> u32 {
        4 * (self.names[v] - FIRST_GATE) + clause
    }
}
