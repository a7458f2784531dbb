//! A change to a copied source, and how it is made.

/// A text must stand exactly once in its file, else the build stops.
#[derive(Clone, Copy)]
pub struct Change {
    pub file: &'static str,
    pub old: &'static str,
    pub new: &'static str,
    /// All from the old text to the file's end is replaced.
    pub to_the_end: bool,
}

pub const fn change(file: &'static str, old: &'static str, new: &'static str) -> Change {
    Change { file, old, new, to_the_end: false }
}

/// The text with the change.
pub fn changed(text: &str, change: &Change) -> String {
    let matches = text.matches(change.old).count();
    if matches != 1 {
        let what = format!("in {} this text stands {matches} times and not once", change.file);
        stop(&format!(
            "The source has changed: {what}:\n\n{}\n\nLook at original/changes.rs and the slips.",
            change.old
        ));
    }
    let at = text.find(change.old).unwrap();
    let rest = if change.to_the_end { "" } else { &text[at + change.old.len()..] };
    format!("{}{}{rest}", &text[..at], change.new)
}

/// Makes the build fail with this message. (A status other than 0 would have cargo print all that was written so far.)
pub fn stop(message: &str) -> ! {
    for line in message.lines() {
        println!("cargo::error={line}");
    }
    std::process::exit(0)
}
