//! A stand-in: a parameter is a constant, since the port takes a fixed command.
use crate::sample::Sample;
use std::marker::PhantomData;

pub struct Parameter<S: Sample>(S);

impl<S: Sample> Parameter<S> {
    pub fn constant(value: S) -> Self {
        Parameter(value)
    }

    pub fn value(&self, _modulation_values: &ModulationValues<S>) -> S {
        self.0
    }
}

#[derive(Default)]
pub struct ModulationValues<S: Sample>(PhantomData<S>);

pub struct ModulationOutput;

pub fn parameter_name_matches(name: &str, names: &[&str]) -> bool {
    names.contains(&name)
}
