//! The names that a grammatical text declares. The proved call has judged the text; here it is only read for names.

use crate::words::{words, Word};

#[derive(Clone, Copy, PartialEq, Eq)]
pub enum Class {
    Input,
    Output,
    Internal,
    Integer,
}

pub struct Declared {
    pub class: Class,
    pub name: String,
}

/// A procedure's head, and the words of its body.
pub struct Procedure {
    pub name: String,
    pub formals: Vec<String>,
    pub body: Vec<String>,
}

pub struct Names {
    pub program: String,
    pub declared: Vec<Declared>,
    pub procedures: Vec<Procedure>,
    /// The offset of the first statement of the program's own list.
    pub statements: usize,
}

impl Names {
    pub fn of(source: &[u8]) -> Names {
        let words: Vec<Word> = words(source).collect();
        let program = words.get(1).map_or(String::new(), |word| text(word.text));
        let mut names = Names { program, declared: Vec::new(), procedures: Vec::new(), statements: source.len() };
        // Behind `program`, its name and a `;`.
        let mut rest = words.get(3..).unwrap_or(&[]);
        while let [word, behind @ ..] = rest {
            rest = match (class_of(word.text), word.text) {
                (Some(class), _) => names.list(class, behind),
                (None, b"procedure") => names.procedure(behind),
                // The one that may stand behind a procedure.
                (None, b";") => behind,
                _ => {
                    names.statements = word.at;
                    break;
                }
            };
        }
        names
    }

    /// Takes the names of a declaration; answers the words behind it.
    fn list<'a, 'b>(&mut self, class: Class, words: &'b [Word<'a>]) -> &'b [Word<'a>] {
        let (list, behind) = until(words, b";");
        let named = list.iter().filter(|word| is_name(word.text));
        self.declared.extend(named.map(|word| Declared { class, name: text(word.text) }));
        behind
    }

    /// Takes a procedure; answers the words behind it.
    fn procedure<'a, 'b>(&mut self, words: &'b [Word<'a>]) -> &'b [Word<'a>] {
        let (head, body) = until(words, b")");
        let (body, behind) = until(body, b"endproc");
        let mut named = head.iter().filter(|word| is_name(word.text)).map(|word| text(word.text));
        self.procedures.push(Procedure {
            name: named.next().unwrap_or_default(),
            formals: named.collect(),
            body: body.iter().map(|word| text(word.text)).collect(),
        });
        behind
    }

    /// The names of one class, in declared order.
    pub fn of_class(&self, class: Class) -> Vec<String> {
        self.declared.iter().filter(|one| one.class == class).map(|one| one.name.clone()).collect()
    }

    pub fn class(&self, name: &[u8]) -> Option<Class> {
        self.declared.iter().find(|one| one.name.as_bytes() == name).map(|one| one.class)
    }
}

/// The words before the first that is this one, and those behind it.
fn until<'a, 'b>(words: &'b [Word<'a>], end: &[u8]) -> (&'b [Word<'a>], &'b [Word<'a>]) {
    match words.iter().position(|word| word.text == end) {
        Some(at) => (&words[..at], &words[at + 1..]),
        None => (words, &[]),
    }
}

fn class_of(word: &[u8]) -> Option<Class> {
    match word {
        b"input" => Some(Class::Input),
        b"output" => Some(Class::Output),
        b"internal" => Some(Class::Internal),
        b"integer" => Some(Class::Integer),
        _ => None,
    }
}

/// In a declaration the only other words with a letter in front are the initialisers.
fn is_name(word: &[u8]) -> bool {
    word[0].is_ascii_alphabetic() && word != b"true" && word != b"false"
}

fn text(word: &[u8]) -> String {
    String::from_utf8_lossy(word).into_owned()
}

#[cfg(test)]
mod tests {
    use super::{Class, Names};

    #[test]
    fn declarations_are_read_in_order() {
        let source = b"program p; input A.H,B .L;output C=true , D;integer x[3]=5;input E; x := 1 endprog";
        let names = Names::of(source);
        assert_eq!(names.program, "p");
        assert_eq!(names.of_class(Class::Input), ["A", "B", "E"]);
        assert_eq!(names.of_class(Class::Output), ["C", "D"]);
        assert_eq!(names.of_class(Class::Integer), ["x"]);
        assert_eq!(&source[names.statements..names.statements + 4], b"x :=");
    }

    #[test]
    fn procedures_stand_among_the_declarations() {
        let source = b"program p; input A; procedure w(a, b) raise(a) endproc output B; procedure v() w(B, 1); endproc; v() endprog";
        let names = Names::of(source);
        assert_eq!(names.of_class(Class::Input), ["A"]);
        assert_eq!(names.of_class(Class::Output), ["B"]);
        assert_eq!(names.procedures.iter().map(|one| one.name.as_str()).collect::<Vec<_>>(), ["w", "v"]);
        assert_eq!(names.procedures[0].formals, ["a", "b"]);
        assert_eq!(names.procedures[0].body, ["raise", "(", "a", ")"]);
        assert!(names.procedures[1].formals.is_empty());
        assert_eq!(&source[names.statements..], b"v() endprog");
    }

    #[test]
    fn any_words_are_read_to_their_end() {
        for source in
            ["", "program", "program p", "program p; input", "program p; procedure", "program p; procedure w(a"]
        {
            assert_eq!(Names::of(source.as_bytes()).statements, source.len());
        }
    }
}
