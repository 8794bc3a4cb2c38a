//! The sentences of the messages, from the gettext files in po/.
use crate::message::Message;
use std::collections::HashMap;

/// The languages, by their gettext files.
pub const LANGUAGES: [(&str, &str); 3] =
    [("en", include_str!("../po/en.po")), ("de", include_str!("../po/de.po")), ("fr", include_str!("../po/fr.po"))];

/// Stands in a sentence for the number of bits.
const BITS: &str = "{bits}";

/// Sentences and advice in one language, by context.
pub struct Catalogue {
    entries: HashMap<String, String>,
}

impl Catalogue {
    /// The catalogue for a language such as `de` or `de_AT.UTF-8`, if there is one.
    pub fn of(language: &str) -> Option<Catalogue> {
        let short = language.split(['_', '-', '.', '@']).next()?.to_ascii_lowercase();
        let (_, text) = LANGUAGES.iter().find(|(name, _)| *name == short)?;
        Some(Catalogue { entries: parse(text) })
    }

    /// The catalogue that the environment asks for, or else English.
    pub fn of_environment() -> Catalogue {
        let asked = ["LC_ALL", "LC_MESSAGES", "LANG"].iter().find_map(|name| std::env::var(name).ok().filter(|v| !v.is_empty()));
        asked.and_then(|language| Catalogue::of(&language)).or_else(|| Catalogue::of("en")).expect("English is there")
    }

    fn entry(&self, context: &str) -> &str {
        self.entries.get(context).map(String::as_str).unwrap_or_default()
    }

    /// One sentence that says what happened; a number of bits in it is the message's, or else N.
    pub fn sentence(&self, message: Message) -> String {
        let bits = match message {
            Message::HeaderPast(Some(bits)) => bits.to_string(),
            _ => "N".to_string(),
        };
        self.entry(&message.number().to_string()).replace(BITS, &bits)
    }

    /// What to do.
    pub fn advice(&self, message: Message) -> &str {
        self.entry(&format!("{} advice", message.number()))
    }
}

/// The translations of a gettext file by their contexts.
fn parse(text: &str) -> HashMap<String, String> {
    let mut entries = HashMap::new();
    let (mut context, mut translation, mut keyword) = (String::new(), String::new(), "");
    for line in text.lines().chain(["msgctxt \"\""]) {
        let (word, rest) = line.split_once(' ').unwrap_or((line, ""));
        let content = match word {
            "msgctxt" => {
                entries.insert(std::mem::take(&mut context), std::mem::take(&mut translation));
                keyword = "msgctxt";
                rest
            }
            "msgid" | "msgstr" => {
                keyword = if word == "msgid" { "msgid" } else { "msgstr" };
                rest
            }
            _ if line.starts_with('"') => line,
            _ => continue,
        };
        match keyword {
            "msgctxt" => context.push_str(&unquoted(content)),
            "msgstr" => translation.push_str(&unquoted(content)),
            _ => {}
        }
    }
    entries.remove("");
    entries
}

/// The content of a quoted gettext string.
fn unquoted(text: &str) -> String {
    let inner = text.trim().trim_start_matches('"');
    let inner = inner.strip_suffix('"').unwrap_or(inner);
    inner.replace("\\\"", "\"").replace("\\n", "\n").replace("\\\\", "\\")
}

#[cfg(test)]
mod tests {
    use super::*;

    #[test]
    fn every_language_has_every_number() {
        for (language, _) in LANGUAGES {
            let catalogue = Catalogue::of(language).unwrap();
            for message in Message::all() {
                assert!(!catalogue.sentence(message).is_empty(), "{language} {message:?}");
                assert!(!catalogue.advice(message).is_empty(), "{language} {message:?} advice");
            }
            assert_eq!(catalogue.entries.len(), 2 * Message::all().len(), "{language}");
        }
    }

    #[test]
    fn bits_are_told() {
        for (language, _) in LANGUAGES {
            let catalogue = Catalogue::of(language).unwrap();
            let said = |bits| catalogue.sentence(Message::HeaderPast(bits));
            assert!(said(Some(998)).contains(" 998."), "{language}");
            assert_eq!(said(None), said(Some(998)).replace("998", "N"), "{language}");
            let placed = catalogue.entries.iter().filter(|(_, text)| text.contains(['{', '}'])).map(|(context, _)| &context[..]);
            assert_eq!(placed.collect::<Vec<_>>(), ["123"], "{language}");
        }
    }

    #[test]
    fn english_is_the_engine_crates() {
        let english = Catalogue::of("en_GB.UTF-8").unwrap();
        for refusal in tonkelvi::Refusal::ALL {
            assert_eq!(english.sentence(Message::Refused(*refusal)), refusal.sentence());
        }
    }

    /// The lines of a gettext file that every language shares.
    fn shared(text: &str) -> Vec<&str> {
        text.lines().filter(|line| line.starts_with("msgctxt") || line.starts_with("msgid")).collect()
    }

    #[test]
    fn every_language_follows_the_template() {
        let template = shared(include_str!("../po/tonkelvi.pot"));
        for (language, text) in LANGUAGES {
            assert_eq!(shared(text), template, "{language}");
        }
    }

    #[test]
    fn strings_over_lines() {
        let text = "msgid \"\"\nmsgstr \"head\"\n\nmsgctxt \"7\"\nmsgid \"a\"\nmsgstr \"\"\n\"say \\\"b\\\"\"\n\" c\"\n";
        assert_eq!(parse(text), HashMap::from([("7".to_string(), "say \"b\" c".to_string())]));
    }
}
