//! Tests of the crates on events and their forms: `event_form`, `event_map`, `json_span` and `bridge_words`.
#![tactic(auto)]

#[cfg(test)]
mod entries;
#[cfg(test)]
mod json;
#[cfg(test)]
mod maps;
#[cfg(test)]
mod spelling;
#[cfg(test)]
mod tests;
#[cfg(test)]
mod words;
