//! Refusals as values of their own.
use eddybridge::{PowerSumQuackU32, Refusal};

#[test]
fn refusals_have_their_numbers() {
    for number in 1..=12 {
        let refusal = Refusal::from_number(number).unwrap();
        assert_eq!(refusal.number(), number);
        assert!(refusal.to_string().ends_with(&format!("(refusal {number})")));
    }
    assert_eq!(Refusal::from_number(0), None);
    assert_eq!(Refusal::from_number(13), None);
}

#[test]
fn refusals_are_errors() {
    fn make(threshold: usize) -> Result<PowerSumQuackU32, Box<dyn std::error::Error + Send + Sync>> {
        Ok(PowerSumQuackU32::new(threshold)?)
    }
    assert_eq!(make(0).unwrap_err().to_string(), "the threshold is 0 or above 32 (refusal 1)");
}
