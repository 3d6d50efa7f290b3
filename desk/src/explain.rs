//! What a refusal's number means, when it comes, and what to do about it: a section of docs/GUIDE.md.

use crate::paint::{Paint, Tone};
use crate::words::{called, under};
use pilgonca::Refusal;

const GUIDE: &str = include_str!("../../docs/GUIDE.md");

/// The explanation of one refusal.
pub fn explain(refusal: Refusal, paint: Paint) -> String {
    let [meaning, when, action] = section(refusal.number());
    let title = format!("{}: {meaning}", refusal.number());
    format!(
        "{}\n\n{}{}",
        paint.of(Tone::Strong, &title),
        under("  When:  ", &when),
        under("  To do: ", &action)
    )
}

/// A refusal in words.
pub fn refused(refusal: Refusal) -> String {
    format!("refused with {}: {refusal}", refusal.number())
}

/// What the guide says, without its backquotes: a heading, and the two points under it. A test holds that it has all three for every refusal.
fn section(number: u8) -> [String; 3] {
    let heading = format!("### {number}: ");
    let mut lines = GUIDE.lines();
    let meaning = lines.find_map(|line| line.strip_prefix(&heading));
    let under: Vec<&str> = lines.take_while(|line| !line.starts_with('#')).collect();
    let commands = format!("`{} ", called());
    let under = under.join(" ").replace("   ", " ");
    let under = under.replace("`desk ", &commands);
    let (_, points) = under.split_once("- When: ").unwrap_or_default();
    let (when, action) = points.split_once(" - To do: ").unwrap_or_default();
    [meaning.unwrap_or_default(), when, action].map(|text| text.trim().replace('`', ""))
}

#[cfg(test)]
mod tests {
    use super::*;

    /// A terminal shows them as they stand.
    #[test]
    fn the_guide_has_a_section_for_every_refusal() {
        for refusal in Refusal::ALL {
            let heading = format!("### {}: ", refusal.number());
            let found = GUIDE.lines().filter(|line| line.starts_with(&heading));
            assert_eq!(found.count(), 1, "{refusal}");
            for text in section(refusal.number()) {
                assert!(
                    !text.is_empty() && !text.contains("  "),
                    "{refusal}: {text}"
                );
            }
        }
        assert!(section(16)[2].contains("use w64 in every type on the way"));
        assert!(section(8)[2].ends_with("what can become what"));
        let (_, refusals) = GUIDE.split_once("\n## Refusals\n").expect("a heading");
        let (refusals, _) = refusals.split_once("\n## ").expect("the next");
        let sections = refusals.lines().skip_while(|line| !line.starts_with("###"));
        for line in sections {
            assert!(
                line.chars().count() <= 80 && !line.starts_with('|'),
                "{line}"
            );
        }
    }
}
