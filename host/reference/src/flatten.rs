//! Flattening: the root and the atomics alone, with each route as a coupling, and ranges read as they were.

use crate::answers::Written;
use crate::decode::decode;
use crate::model::Model;
use crate::records::{Component, Coupling, Rule};
use crate::routes;

/// Writes the flat form of a model into the lent buffer.
pub fn flatten(file: &[u8], out: &mut [u8]) -> Written {
    let model = match decode(file) {
        Ok(model) => model,
        Err(number) => return Written::refused(number),
    };
    Written::at_the_front(out, &flat_form(&model).encode())
}

/// The flat form of an accepted model.
pub fn flat_form(model: &Model) -> Model {
    let atomics = model.atomics();
    let new_number = |component: usize| match component {
        0 => 0,
        atomic => {
            let rank = atomics.iter().position(|&number| number == atomic);
            rank.expect("a rule or a route names an atomic or the root") as u8 + 1
        }
    };
    let mut components = vec![Component::default()];
    components
        .extend(atomics.iter().map(|&atomic| Component { parent: 0, ..model.components[atomic] }));
    let rules = model
        .rules
        .iter()
        .map(|rule| Rule { component: new_number(usize::from(rule.component)), ..*rule });
    let routes = routes::list(model).into_iter().map(|route| Coupling {
        source: new_number(route.from.component),
        source_port: route.from.number,
        target: new_number(route.to.component),
        target_port: route.to.number,
    });
    let mut couplings: Vec<Coupling> = routes.collect();
    couplings.sort();
    let (phases, rules) = (model.phases.clone(), rules.collect());
    Model { components, phases, rules, couplings, ranges: model.ranges }
}
