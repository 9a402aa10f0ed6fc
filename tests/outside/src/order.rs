//! The calls that bring the vertices, the edges or one vertex's list of a saved chart into a wanted order.

use crate::image;
use crate::machine::{Capacities, Graph};
use crate::page::{CAPACITIES, TYPES};
use crate::run::{Case, Outcome};

/// What is put in order.
#[derive(Clone, Copy, PartialEq, Eq, Debug)]
pub enum Items {
    Vertices,
    Edges,
    /// The list of this vertex.
    List(u32),
}

impl Items {
    /// The kind of call that puts one of them directly after another.
    pub fn kind(self) -> u32 {
        match self {
            Items::Vertices => 12,
            Items::Edges => 14,
            Items::List(_) => 16,
        }
    }

    /// As they stand; nothing where the vertex is missing.
    pub fn of(self, g: &Graph) -> Option<Vec<u32>> {
        match self {
            Items::Vertices => Some(g.vertices.iter().map(|v| v.number).collect()),
            Items::Edges => Some(g.edges.iter().map(|e| e.number).collect()),
            Items::List(number) => g.vertex(number).map(|v| v.list.clone()),
        }
    }

    /// The graph with just these in the wanted order.
    fn ordered(self, g: &Graph, wanted: &[u32]) -> Graph {
        let mut after = g.clone();
        match self {
            Items::Vertices => after.vertices = wanted.iter().map(|n| g.vertex(*n).unwrap().clone()).collect(),
            Items::Edges => after.edges = wanted.iter().map(|n| g.edge(*n).unwrap().clone()).collect(),
            Items::List(number) => after.vertices.iter_mut().find(|v| v.number == number).unwrap().list = wanted.to_vec(),
        }
        after
    }
}

/// What is asked for, with the number of words lent for the calls.
#[derive(Clone, Debug)]
pub struct Order {
    pub words: Vec<u32>,
    pub items: Items,
    pub wanted: Vec<u32>,
    pub room: usize,
}

impl Order {
    /// The words of the calls, or the code: those of words that do not load, 4, 111, 112, in this order.
    pub fn calls(&self) -> Result<Vec<u32>, u32> {
        let Some(g) = image::load(&self.words, CAPACITIES, TYPES) else {
            return Err(image::bad(&self.words, CAPACITIES, TYPES).expect("words that do not load have a bad one").code());
        };
        let Some(present) = self.items.of(&g) else { return Err(4) };
        if sorted(&present) != sorted(&self.wanted) {
            return Err(111);
        }
        let calls: Vec<u32> = self.wanted.windows(2).flat_map(|pair| [self.items.kind(), pair[1], pair[0], 0, 0]).collect();
        if self.room < calls.len() {
            return Err(112);
        }
        Ok(calls)
    }

    /// A run of these calls on the same chart, in a log with as many changes as there are calls, and what must come of it:
    /// every call accepted, and the chart as it was but for the order. A log of no change is none, so it has one at least.
    pub fn arrival(&self, calls: &[u32]) -> (Case, Outcome) {
        let g = image::load(&self.words, CAPACITIES, TYPES).expect("words that an order was made of load");
        let most = |numbers: Vec<u32>| numbers.into_iter().max().unwrap_or(1);
        let capacities =
            Capacities { vertices: most(Items::Vertices.of(&g).unwrap()), edges: most(Items::Edges.of(&g).unwrap()), changes: (calls.len() / 5).max(1) as u32 };
        let list: Vec<[u32; 5]> = calls.chunks(5).map(|call| call.try_into().unwrap()).collect();
        let case = Case { start: self.words.clone(), ..Case::new(capacities, &[0; 64], &list) };
        let mut row = self.items.of(&g).unwrap();
        let mut answers = Vec::new();
        for [_, a, b, ..] in list {
            let before = row.clone();
            row.retain(|item| *item != a);
            let at = row.iter().position(|item| *item == b).unwrap();
            row.insert(at + 1, a);
            answers.extend([0, (row != before) as u32]);
        }
        (case, Outcome::Done { answers, image: image::save(&self.items.ordered(&g, &self.wanted)) })
    }
}

fn sorted(words: &[u32]) -> Vec<u32> {
    let mut all = words.to_vec();
    all.sort_unstable();
    all
}

#[cfg(test)]
mod tests {
    use super::{Items, Order};
    use crate::examples::{SEVEN_IMAGE, SEVEN_OLD};

    fn calls(items: Items, wanted: &[u32], room: usize) -> Result<Vec<u32>, u32> {
        let order = |words: &[u32]| Order { words: words.to_vec(), items, wanted: wanted.to_vec(), room }.calls();
        assert_eq!(order(&SEVEN_IMAGE), order(&SEVEN_OLD));
        order(&SEVEN_IMAGE)
    }

    #[test]
    fn orders_of_seven() {
        assert_eq!(calls(Items::Vertices, &[3, 1, 4, 2], 15), Ok(vec![12, 1, 3, 0, 0, 12, 4, 1, 0, 0, 12, 2, 4, 0, 0]));
        assert_eq!(calls(Items::List(4), &[15, 14, 12, 10], 16), Ok(vec![16, 14, 15, 0, 0, 16, 12, 14, 0, 0, 16, 10, 12, 0, 0]));
        assert_eq!(calls(Items::List(3), &[], 0), Ok(vec![]));
        assert_eq!(calls(Items::List(4), &[10, 12, 14, 14], 0), Err(111));
        assert_eq!(calls(Items::List(5), &[], 0), Err(4));
        assert_eq!(calls(Items::List(0), &[10], 0), Err(4));
        assert_eq!(calls(Items::Vertices, &[3, 1, 4, 2], 14), Err(112));
    }

    #[test]
    fn the_plain_machine_arrives() {
        let order = Order { words: SEVEN_IMAGE.to_vec(), items: Items::Vertices, wanted: vec![3, 1, 4, 2], room: 15 };
        let (case, outcome) = order.arrival(&order.calls().unwrap());
        assert_eq!(case.run(), outcome);
        assert!(matches!(outcome, crate::run::Outcome::Done { answers, .. } if answers == [0, 1, 0, 0, 0, 1]));
    }
}
