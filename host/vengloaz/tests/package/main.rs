//! The package: its calls, what each answer and refusal becomes as a value and as text, its example, and what the
//! repository says of the same bytes elsewhere: the header for C and docs/FORMATS.md.

mod answers;
mod building;
mod declared;
mod example;
mod formats;
mod header;
mod ledgers;
mod refused;
mod support;
mod texts;
