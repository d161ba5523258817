//! Values and steps as JSON.
use crate::json::Json;
use crate::said::notes;
use crate::step::{Step, Whole};
use crate::whole::Open;
use thresholm::Multivector;
use thresholm::bound::{Coefficient, Guarantee, Size};
use thresholm::rig::blade_names;

/// A value: its shape, the names of its blades, and its numbers in the same order.
pub fn value_fields(value: &Multivector) -> [(&'static str, Json); 3] {
    let (dims, flavor) = (usize::from(value.dims()), value.flavor().to_string());
    [
        ("shape", Json::Fields(vec![("dims", dims.into()), ("flavor", flavor.into())])),
        ("blades", blade_names(value.shape()).into()),
        ("numbers", value.numbers().to_vec().into()),
    ]
}

/// How far each number of a whole product lies at most from that of the exact one: 0 is exact, null no bound.
pub fn within(whole: &Whole) -> Json {
    match whole.chain.distances() {
        Some(distances) => distances.iter().map(Size::to_f64).collect::<Vec<_>>().into(),
        None => vec![Json::Null; whole.chain.value().numbers().len()].into(),
    }
}

pub fn opened_form(open: Open) -> Json {
    Json::Fields(vec![("step", open.step.into()), ("why", open.why.into())])
}

/// A step by itself.
pub fn step_form(step: &Step) -> Json {
    let [left, right] = step.factors.each_ref().map(|factor| factor.called.clone().into());
    let mut fields = vec![
        ("step", step.number.into()),
        ("left", left),
        ("right", right),
        ("notes", notes(step).into()),
        ("pairs", (step.product.pairs as usize).into()),
    ];
    fields.extend(value_fields(&step.product.value));
    fields.push(("within", step.bound.coefficients().iter().map(near).collect::<Vec<_>>().into()));
    Json::Fields(fields)
}

fn near(coefficient: &Coefficient) -> Json {
    match coefficient.guarantee() {
        Guarantee::Exact => 0.0.into(),
        Guarantee::Within(limit) => limit.to_f64().into(),
        _ => Json::Null,
    }
}
