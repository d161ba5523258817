//! What is said to a program of two rigs, as JSON.
use super::{Compare, Compared};
use crate::differences::{Blade, Difference};
use crate::json::{self, Json};
use thresholm::Shape;

pub(super) fn answer(compared: &Compared) -> String {
    let values: Vec<Json> =
        compared.values.iter().enumerate().filter_map(|(index, value)| of_value(compared, index, value)).collect();
    let counts = compared.rigs.each_ref().map(|values| values.sheet().len());
    json::answer(
        "diff",
        vec![
            ("rigs", compared.files.to_vec().into()),
            ("counts", counts.to_vec().into()),
            ("same", (compared.differing() == 0).into()),
            ("bit_for_bit", values.is_empty().into()),
            ("values", Json::List(values)),
            ("notes", compared.rigs.each_ref().map(|values| values.note()).to_vec().into()),
        ],
    )
}

/// A value that differs in something, if only in bits.
fn of_value(compared: &Compared, index: usize, value: &Compare) -> Option<Json> {
    let differs = match value {
        Compare::Both(difference) if difference.is_bit_for_bit() => return None,
        Compare::Both(difference) => fields(difference),
        Compare::Alone { rig: 0, shape } => of_parts([Some(*shape), None], false, &[]),
        Compare::Alone { shape, .. } => of_parts([None, Some(*shape)], false, &[]),
    };
    let start = [
        ("value", index.into()),
        ("names", compared.names(index).to_vec().into()),
        ("same", (!value.differs()).into()),
    ];
    Some(Json::Fields(start.into_iter().chain(differs).collect()))
}

/// How two values differ.
pub fn fields(difference: &Difference) -> [(&'static str, Json); 3] {
    of_parts(difference.shapes.map(Some), difference.every_sign_turned, &difference.blades)
}

fn of_parts(shapes: [Option<Shape>; 2], every_sign_turned: bool, blades: &[Blade]) -> [(&'static str, Json); 3] {
    [
        ("shapes", shapes.map(|shape| shape.map(of_shape)).to_vec().into()),
        ("every_sign_turned", every_sign_turned.into()),
        ("blades", Json::List(blades.iter().map(of_blade).collect())),
    ]
}

pub fn of_shape(shape: Shape) -> Json {
    Json::Fields(vec![("dims", usize::from(shape.dims()).into()), ("flavor", shape.flavor().to_string().into())])
}

fn of_blade(blade: &Blade) -> Json {
    Json::Fields(vec![
        ("blade", blade.name.as_str().into()),
        ("numbers", blade.numbers().to_vec().into()),
        ("last_places", blade.last_places().map(|places| places as usize).into()),
        ("sign_turned", blade.sign_turned().into()),
    ])
}
