//! ITS-AIDs with the names of their applications.

/// 001 gives no number. For its two message profiles it points to ETSI TS 102 965
/// (001, clauses 7.1 and 7.2): 36 is registered there for CAMs, of the application
/// CA, and 37 for DENMs, of the application DEN.
const NAMES: [(u32, &str); 2] = [(36, "CA"), (37, "DEN")];

pub fn name(its_aid: u32) -> Option<&'static str> {
    let named = NAMES.iter().find(|(number, _)| *number == its_aid);
    named.map(|(_, name)| *name)
}

/// Several of them, in brackets.
pub fn list(its_aids: &[u32]) -> String {
    let words: Vec<String> = its_aids.iter().map(u32::to_string).collect();
    format!("[{}]", words.join(" "))
}

#[cfg(test)]
mod tests {
    use super::*;

    #[test]
    fn names() {
        let names = [36, 37, 38].map(name);
        assert_eq!(names, [Some("CA"), Some("DEN"), None]);
    }

    #[test]
    fn lists() {
        assert_eq!(list(&[36, 4_000]), "[36 4000]");
        assert_eq!(list(&[]), "[]");
    }
}
