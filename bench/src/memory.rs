//! Measures peak memory beyond the text, each in a separate process.
use crate::measure::peak;
use crate::splitting;
use crate::texts::zone;
use std::process::{Command, Stdio};

pub struct Peak {
    pub name: String,
    pub octets: usize,
    pub beyond: usize,
}

/// Runs an operation on a file, and prints the peak memory beyond its text.
pub fn run(operation: &str, file: &str) {
    let text = std::fs::read(file).expect("the file is read");
    let before = peak();
    let found = match operation {
        "cursor" => splitting::cursor(&text),
        "split" => splitting::ours(&text),
        _ => splitting::plain_count(&text),
    };
    assert_ne!(found, 0);
    println!("{}", peak() - before);
}

/// Returns the peak memory of the program `dnstext`, and the number of octets that it printed.
///
/// The indent after each comment is as wide as the first token, so a few arguments make a long
/// text.
fn program() -> Peak {
    let path = concat!(
        env!("CARGO_MANIFEST_DIR"),
        "/target/library/crates/dnstext/out/dnstext"
    );
    let mut words = vec!["print".to_string(), "multiline".to_string()];
    words.push(format!("t:{}", "x".repeat(100_000)));
    words.push("(".to_string());
    words.extend((0..10_000).flat_map(|_| ["t:a".to_string(), "c:b".to_string()]));
    words.push(")".to_string());
    let mut child = Command::new(path)
        .args(&words)
        .stdout(Stdio::piped())
        .spawn()
        .expect("the program is there");
    let mut output = child.stdout.take().expect("its output");
    let mut room = vec![0; 1 << 20];
    let mut octets = 0;
    loop {
        match std::io::Read::read(&mut output, &mut room).expect("its output is read") {
            0 => break,
            count => octets += count,
        }
    }
    let beyond = crate::measure::peak_of(child);
    Peak {
        name: "`dnstext print`, by its output, with its words".to_string(),
        octets,
        beyond,
    }
}

/// Returns the figures of `split`, the iterator and the plain splitter on about 100 MB, and of the
/// program.
pub fn rows() -> Vec<Peak> {
    let text = zone(1_600_000);
    let path = std::env::temp_dir().join("dnstext-memory.zone");
    std::fs::write(&path, &text).expect("the zone is written");
    let itself = std::env::current_exe().expect("this program");
    let operations = [
        ("cursor", "the cursor"),
        ("split", "`split`"),
        ("plain", "the plain splitter"),
    ];
    let mut peaks: Vec<Peak> = operations
        .iter()
        .map(|(operation, name)| {
            let run = Command::new(&itself)
                .args(["--memory", operation])
                .arg(&path)
                .output();
            let output = run.expect("it runs");
            let beyond = String::from_utf8(output.stdout).expect("a number");
            Peak {
                name: name.to_string(),
                octets: text.len(),
                beyond: beyond.trim().parse().expect("a number"),
            }
        })
        .collect();
    std::fs::remove_file(&path).expect("the zone is removed");
    peaks.push(program());
    peaks
}
