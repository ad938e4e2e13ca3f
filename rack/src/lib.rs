//! A rack without hardware: four transports, a host, and faults between them and the proved controller.

pub mod alone;
pub mod board;
pub mod cartridge;
pub mod driver;
pub mod faults;
pub mod files;
pub mod host;
pub mod noise;
pub mod page;
pub mod replay;
pub mod run;
pub mod scenario;
pub mod soak;
pub mod story;
pub mod summary;
pub mod tap;
pub mod transport;
