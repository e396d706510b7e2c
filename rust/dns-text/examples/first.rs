//! Prints the records of a zone file and of the files that it includes: `first ORIGIN FILE`.
use dns_text::read_zone;

fn main() -> Result<(), Box<dyn std::error::Error>> {
    let words: Vec<String> = std::env::args().collect();
    let [_, origin, file] = &words[..] else {
        return Err("first ORIGIN FILE".into());
    };
    for record in read_zone(file, &origin.parse()?)? {
        match record {
            Ok(record) => println!("{record}"),
            Err(error) => println!("{error}"),
        }
    }
    Ok(())
}
