//! The plain implementation against documents 01 and 02: the ten entries, the refusals' order, ringrun's
//! text, loads, tapes of no events, surveys, and traffic.

mod entries;
mod faults;
mod loads;
mod no_events;
mod refusals;
mod reports;
mod support;
mod surveys;
mod traffic;
