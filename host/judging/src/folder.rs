//! The folder of inputs: a folder for each class, a file for each input.

use crate::classes::Class;
use crate::end::Whole;
use crate::program::Task;
use second::judge::{fault_line, judge_all};
use std::fs::{self, File};
use std::io::Write;
use std::path::{Path, PathBuf};

/// A file of the folder, and the place of its class among all.
pub struct Case {
    pub class: usize,
    pub path: PathBuf,
}

/// Writes every class anew and gives every file, in the order of the classes; panics when one has another number of inputs than was set out, or when
/// the second program doesn't say of an input what it was made for.
pub fn write(folder: &Path, classes: &[Class]) -> Vec<Case> {
    if folder.exists() {
        fs::remove_dir_all(folder).expect("the last run's folder can be removed");
    }
    for class in classes {
        let inputs = (class.make)();
        assert_eq!(inputs.len(), class.inputs, "inputs of: {}", class.name);
        let room = folder.join(file_name(&class.name));
        fs::create_dir_all(&room).expect("a folder for the class");
        for input in inputs {
            if let Some(output) = input.output {
                let told = judge_all(&input.bytes);
                assert_eq!(String::from_utf8_lossy(&told), output, "{}", input.name);
            }
            if let Some(fault) = input.fault {
                assert_eq!(fault_line(&input.bytes), fault, "{}", input.name);
            }
            if let Some((task, end)) = input.ends {
                let said = Whole::of(task, &input.bytes).words;
                assert!(said.starts_with(&end), "{}: {said}, not {end}", input.name);
            }
            if let Some([report, said]) = input.replayed {
                let whole = Whole::of(Task::Replay, &input.bytes);
                let told = String::from_utf8_lossy(&whole.report);
                assert_eq!(told, report, "{}", input.name);
                let words = whole.words;
                assert!(
                    words.starts_with(&said),
                    "{}: {words}, not {said}",
                    input.name
                );
            }
            let file = File::create_new(room.join(file_name(&input.name)));
            file.and_then(|mut file| file.write_all(&input.bytes))
                .unwrap_or_else(|error| panic!("{}: {error}", input.name));
        }
    }
    cases(folder, classes)
}

/// Gives every file that the folder has, in the order of the classes.
fn cases(folder: &Path, classes: &[Class]) -> Vec<Case> {
    let mut cases = Vec::new();
    for (class, Class { name, .. }) in classes.iter().enumerate() {
        let mut paths: Vec<PathBuf> = fs::read_dir(folder.join(file_name(name)))
            .expect("the class has a folder")
            .map(|entry| entry.expect("the folder can be read").path())
            .collect();
        paths.sort();
        cases.extend(paths.into_iter().map(|path| Case { class, path }));
    }
    cases
}

/// Gives a name in which no blank is left.
fn file_name(name: &str) -> String {
    name.replace(' ', "-")
}
