//! The tests, which `scripts/checks/tests.sh` runs without a proof. They show what no contract states: that with ample
//! memory each public call succeeds, and that the results are those expected from elsewhere.
#[cfg(test)]
mod changed_types;
#[cfg(test)]
mod checked_types;
#[cfg(test)]
mod library;
#[cfg(test)]
mod own_types;
