pub mod effectors;
