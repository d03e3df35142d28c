//! Variables by activity: a binary heap that knows each variable's place.
use super::cone::NONE;

pub struct Order {
    heap: Vec<u32>,
    places: Vec<u32>,
    activity: Vec<f64>,
    bump: f64,
}

impl Order {
    pub fn new(variables: usize) -> Self {
        Self { heap: Vec::new(), places: vec![NONE; variables], activity: vec![0.0; variables], bump: 1.0 }
    }

    pub fn clear(&mut self) {
        for v in self.heap.drain(..) {
            self.places[v as usize] = NONE;
        }
    }

    pub fn bump(&mut self, v: usize) {
        self.activity[v] += self.bump;
        if self.activity[v] > 1e100 {
            self.activity.iter_mut().for_each(|activity| *activity *= 1e-100);
            self.bump *= 1e-100;
        }
        if self.places[v] != NONE {
            self.up(self.places[v] as usize);
        }
    }

    /// Earlier bumps count less from now on.
    pub fn decay(&mut self) {
        self.bump /= 0.95;
    }

    pub fn push(&mut self, v: u32) {
        if self.places[v as usize] == NONE {
            self.heap.push(v);
            self.up(self.heap.len() - 1);
        }
    }

    pub fn pop(&mut self) -> Option<u32> {
        let top = *self.heap.first()?;
        self.places[top as usize] = NONE;
        let last = self.heap.pop()?;
        if last != top {
            self.heap[0] = last;
            self.down(0);
        }
        Some(top)
    }

    fn above(&self, a: u32, b: u32) -> bool {
        self.activity[a as usize] > self.activity[b as usize]
    }

    fn set(&mut self, at: usize, v: u32) {
        self.heap[at] = v;
        self.places[v as usize] = at as u32;
    }

    fn up(&mut self, mut at: usize) {
        let v = self.heap[at];
        while at > 0 && self.above(v, self.heap[(at - 1) / 2]) {
            self.set(at, self.heap[(at - 1) / 2]);
            at = (at - 1) / 2;
        }
        self.set(at, v);
    }

    fn down(&mut self, mut at: usize) {
        let v = self.heap[at];
        loop {
            let mut child = 2 * at + 1;
            if child + 1 < self.heap.len() && self.above(self.heap[child + 1], self.heap[child]) {
                child += 1;
            }
            if child >= self.heap.len() || !self.above(self.heap[child], v) {
                break;
            }
            self.set(at, self.heap[child]);
            at = child;
        }
        self.set(at, v);
    }
}

#[cfg(test)]
mod tests {
    use super::*;

    #[test]
    fn the_most_active_comes_first() {
        let mut order = Order::new(10);
        (0..10).for_each(|v| order.push(v));
        for v in [3, 7, 3, 1, 3, 7] {
            order.bump(v);
        }
        assert_eq!([(); 3].map(|()| order.pop()), [Some(3), Some(7), Some(1)]);
        order.push(3);
        assert_eq!(order.pop(), Some(3));
        assert_eq!(std::iter::from_fn(|| order.pop()).count(), 7);
        order.push(2);
        order.clear();
        assert_eq!(order.pop(), None);
    }
}
