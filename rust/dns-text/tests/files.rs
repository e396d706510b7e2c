//! `read_zone`: a zone file and its includes from the file system, and their sets.
use dns_text::{read_zone, record_sets, FollowErrorKind, Name, RecordType, Ttl};
use std::fs;
use std::io::ErrorKind;
use std::path::{Path, PathBuf};

/// A folder of its own, which is removed at the end.
struct Folder(PathBuf);

impl Folder {
    fn new(name: &str, files: &[(&str, &str)]) -> Folder {
        let id = std::process::id();
        let path = std::env::temp_dir().join(format!("dns_text-files-{name}-{id}"));
        let _ = fs::remove_dir_all(&path);
        for (file, text) in files {
            let file = path.join(file);
            fs::create_dir_all(file.parent().unwrap()).unwrap();
            fs::write(file, text).unwrap();
        }
        Folder(path)
    }

    fn path(&self, file: &str) -> PathBuf {
        self.0.join(file)
    }
}

impl Drop for Folder {
    fn drop(&mut self) {
        let _ = fs::remove_dir_all(&self.0);
    }
}

fn origin() -> Name {
    "example.".parse().unwrap()
}

/// Returns the records and errors of a zone file as lines, with files below the folder.
fn lines(folder: &Folder, path: &Path) -> Vec<String> {
    let before = format!("{}/", folder.0.display());
    let found = read_zone(path, &origin()).unwrap();
    let lines = found.map(|record| match record {
        Ok(record) => record.to_string(),
        Err(error) => error.to_string().replace(&before, ""),
    });
    lines.collect()
}

#[test]
fn includes_are_beside_their_file() {
    let folder = Folder::new(
        "beside",
        &[
            (
                "zone/main",
                "$TTL 60\n@ NS ns\n$INCLUDE below/a lan\nb A 192.0.2.9\nc A x\n",
            ),
            ("zone/below/a", "a A 192.0.2.1\n$INCLUDE b\n$INCLUDE ../c\n"),
            ("zone/below/b", "b A 192.0.2.2\n A 192.0.2.256\n"),
            ("zone/c", "$GENERATE 1-2 g$ A 192.0.2.$\n"),
        ],
    );
    let wanted = [
        "example. 60 IN NS ns.example.",
        "a.lan.example. 60 IN A 192.0.2.1",
        "b.lan.example. 60 IN A 192.0.2.2",
        "zone/below/b:2:4: A: address: expected IPv4 address",
        "g1.lan.example. 60 IN A 192.0.2.1",
        "g2.lan.example. 60 IN A 192.0.2.2",
        "b.example. 60 IN A 192.0.2.9",
        "zone/main:5:5: A: address: expected IPv4 address",
    ];
    assert_eq!(lines(&folder, &folder.path("zone/main")), wanted);
}

#[test]
fn files_outside_are_refused() {
    let folder = Folder::new(
        "outside",
        &[
            (
                "zone/main",
                "$INCLUDE ../secret\n$INCLUDE /etc/passwd\n$INCLUDE link\n$INCLUDE gone\n$INCLUDE below/../own\n",
            ),
            ("zone/own", "own 60 A 192.0.2.1\n"),
            ("zone/below/empty", ""),
            ("secret", "s 60 TXT secret\n"),
            ("zones/main", "$INCLUDE x\n"),
        ],
    );
    std::os::unix::fs::symlink(folder.path("secret"), folder.path("zone/link")).unwrap();
    let found = lines(&folder, &folder.path("zone/main"));
    let why = "file outside the folder of the zone";
    let refused =
        |line: usize, file: &str| format!("zone/main:{line}:1: cannot open '{file}': {why}");
    assert_eq!(
        found[..3],
        [
            refused(1, "zone/../secret"),
            refused(2, "/etc/passwd"),
            refused(3, "zone/link")
        ]
    );
    assert!(found[3].starts_with("zone/main:4:1: cannot open 'zone/gone': No such file"));
    assert_eq!(found[4..], ["own.example. 60 IN A 192.0.2.1"]);
    let error = read_zone(folder.path("zone/main"), &origin())
        .unwrap()
        .next();
    let error = error.unwrap().unwrap_err();
    let FollowErrorKind::Open { error, .. } = error.kind else {
        panic!("{error:?}")
    };
    assert_eq!(error.kind(), ErrorKind::PermissionDenied);
}

/// The folder of a link and that of its file are both open.
#[test]
fn links_to_the_first_file() {
    let folder = Folder::new(
        "links",
        &[
            ("real/main", "$INCLUDE beside\n$INCLUDE ../real/other\n"),
            ("real/other", "o 60 A 192.0.2.1\n"),
            ("named/beside", "b 60 A 192.0.2.2\n"),
        ],
    );
    std::os::unix::fs::symlink(folder.path("real/main"), folder.path("named/main")).unwrap();
    let wanted = [
        "b.example. 60 IN A 192.0.2.2",
        "o.example. 60 IN A 192.0.2.1",
    ];
    assert_eq!(lines(&folder, &folder.path("named/main")), wanted);
}

#[test]
fn the_first_file_and_the_origin() {
    let folder = Folder::new("first", &[("main", "a A 192.0.2.1\n")]);
    let error = read_zone(folder.path("none"), &origin()).unwrap_err();
    assert_eq!(error.kind(), ErrorKind::NotFound);
    let relative = "example".parse().unwrap();
    let error = read_zone(folder.path("main"), &relative).unwrap_err();
    assert_eq!(error.kind(), ErrorKind::InvalidInput);
    assert_eq!(error.to_string(), "the origin is a relative name");
    let found = || read_zone(folder.path("main"), &origin()).unwrap();
    assert!(found().into_sets().is_err());
    let ttl = Ttl::try_from(7).unwrap();
    let mut with_ttl = found().with_default_ttl(ttl).with_class(3.into());
    let path = folder.path("main").display().to_string();
    assert_eq!(with_ttl.file(), Some(path.as_bytes()));
    let record = with_ttl.next().unwrap().unwrap();
    assert_eq!(record.to_string(), "a.example. 7 CH A 192.0.2.1");
    assert_eq!(with_ttl.locate(record.place).unwrap().to_string(), "1:1");
    assert!(with_ttl.next().is_none() && with_ttl.next().is_none());
    assert_eq!(with_ttl.file(), None);
}

#[test]
fn records_as_sets() {
    let folder = Folder::new(
        "sets",
        &[
            (
                "main",
                "$TTL 60\n@ NS b\n@ 30 NS A\n@ 90 NS B\nz A 192.0.2.2\n$INCLUDE more\nZ A 192.0.2.1\nz CH A 192.0.2.1\n",
            ),
            ("more", "a.z TXT x\nz TXT x\nz A 192.0.2.2\n"),
        ],
    );
    let found = || read_zone(folder.path("main"), &origin()).unwrap();
    let sets = found().into_sets().unwrap();
    let shown: Vec<String> = sets
        .iter()
        .map(|set| {
            let data: Vec<String> = set.data.iter().map(ToString::to_string).collect();
            let (owner, ttl, class) = (&set.owner, set.ttl, set.class);
            format!(
                "{owner} {ttl} {class} {}: {}",
                set.record_type,
                data.join(" ")
            )
        })
        .collect();
    let wanted = [
        "example. 30 IN NS: A.example. b.example.",
        "Z.example. 60 IN A: 192.0.2.1 192.0.2.2",
        "z.example. 60 IN TXT: \"x\"",
        "z.example. 60 CH A: 192.0.2.1",
        "a.z.example. 60 IN TXT: \"x\"",
    ];
    assert_eq!(shown, wanted);
    assert_eq!(sets[0].record_type, RecordType::NS);
    let records: Vec<_> = found().map(Result::unwrap).collect();
    assert_eq!(record_sets(records.into_iter().rev()).len(), sets.len());
}
