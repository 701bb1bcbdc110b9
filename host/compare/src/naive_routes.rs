//! The routes of a model found by walking every way, with nothing shared with the reference: a second
//! opinion on number 9 and on the couplings of a flat form, for models with few ways.

use reference::model::Model;
use reference::records::Coupling;

/// The most ports that are walked through before the model is given up.
const MOST_PORTS: usize = 20_000;

struct Walk<'m> {
    model: &'m Model,
    /// Where the way began: the component's number in the flat form, and the port.
    source: (u8, u8),
    rows: Vec<Coupling>,
    ports: usize,
}

/// The flat form's couplings in order, or none where the model has too many ways for this.
pub fn flat_rows(model: &Model) -> Option<Vec<Coupling>> {
    let mut walk = Walk { model, source: (0, 0), rows: Vec::new(), ports: 0 };
    for port in 0..4 {
        walk.source = (0, port);
        walk.walk_input(0, port)?;
    }
    for component in 1..model.components.len() {
        if model.components[component].kind == 1 {
            for port in 0..4 {
                walk.source = (rank(model, component), port);
                walk.walk_output(component, port)?;
            }
        }
    }
    walk.rows.sort_by_key(|row| [row.source, row.source_port, row.target, row.target_port]);
    Some(walk.rows)
}

/// The number of an atomic in the flat form: how many atomics stand before it, and the root.
fn rank(model: &Model, component: usize) -> u8 {
    1 + model.components[..component].iter().filter(|other| other.kind == 1).count() as u8
}

impl Walk<'_> {
    fn parent(&self, component: usize) -> Option<usize> {
        (component > 0).then(|| self.model.components[component].parent.into())
    }

    fn end(&mut self, target: u8, target_port: u8) {
        let (source, source_port) = self.source;
        self.rows.push(Coupling { source, source_port, target, target_port });
    }

    fn pass(&mut self) -> Option<()> {
        self.ports += 1;
        (self.ports <= MOST_PORTS).then_some(())
    }

    /// Every way on from a component's input port.
    fn walk_input(&mut self, component: usize, port: u8) -> Option<()> {
        self.pass()?;
        if self.model.components[component].kind == 1 {
            self.end(rank(self.model, component), port);
        }
        for row in self.rows_of(component, port) {
            let target = usize::from(row.target);
            if self.parent(target) == Some(component) {
                self.walk_input(target, row.target_port)?;
            }
        }
        Some(())
    }

    /// Every way on from a component's output port.
    fn walk_output(&mut self, component: usize, port: u8) -> Option<()> {
        self.pass()?;
        if component == 0 {
            self.end(0, port);
            return Some(());
        }
        for row in self.rows_of(component, port) {
            let target = usize::from(row.target);
            if self.parent(component) == Some(target) {
                self.walk_output(target, row.target_port)?;
            } else if self.parent(component) == self.parent(target) {
                self.walk_input(target, row.target_port)?;
            }
        }
        Some(())
    }

    fn rows_of(&self, component: usize, port: u8) -> Vec<Coupling> {
        let from =
            |row: &&Coupling| usize::from(row.source) == component && row.source_port == port;
        self.model.couplings.iter().filter(from).copied().collect()
    }
}
