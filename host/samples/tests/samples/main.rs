//! The samples of ringrun: the files are those that the code makes, and they cover what they are there for.

mod circling;
mod files;
mod planted;
mod proved;
mod refused;
mod stops;
mod support;
