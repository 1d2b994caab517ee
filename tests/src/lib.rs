pub mod library;
pub mod miner;
pub mod model;
pub mod pages;
pub mod profiles;
pub mod random;
pub mod shapes;
pub mod stack;
