// Takes the five files of quinn-proto 0.11.19 from the folder that QUINN_SRC names, and writes them to the build's own folder:
// as they are, but for our lines at the two agreed places, and two functions that the harness may see. With QUINN_AS_IS set, the
// two agreed places stay as they are, too.
use std::{env, fs, path::Path};

struct Change {
    file: &'static str,
    agreed: bool,
    old: &'static str,
    new: &'static str,
}

const CHANGES: [Change; 4] = [
    // From three lifetimes on, the period begins at the issue time, and generation two records.
    Change {
        file: "bloom_token_log.rs",
        agreed: true,
        old: "state.period_1_start = expires_at;\n                &mut state.filter_1",
        new: "state.period_1_start = issued;\n                &mut state.filter_2",
    },
    // A duplicate under a name is discarded.
    Change {
        file: "token_memory_cache.rs",
        agreed: true,
        old: "if tokens.len() >= self.max_tokens_per_server {",
        new: "if tokens.contains(&token) {\n                    return;\n                }\n                if tokens.len() >= self.max_tokens_per_server {",
    },
    Change {
        file: "bloom_token_log.rs",
        agreed: false,
        old: "fn optimal_k_num(",
        new: "pub(crate) fn optimal_k_num(",
    },
    Change {
        file: "token.rs",
        agreed: false,
        old: "    fn decode(key: &dyn HandshakeTokenKey",
        new: "    pub(crate) fn decode(key: &dyn HandshakeTokenKey",
    },
];

const FILES: [&str; 5] = [
    "token.rs",
    "bloom_token_log.rs",
    "token_memory_cache.rs",
    "shared.rs",
    "constant_time.rs",
];

fn main() {
    println!("cargo:rerun-if-env-changed=QUINN_SRC");
    println!("cargo:rerun-if-env-changed=QUINN_AS_IS");
    let as_is = env::var_os("QUINN_AS_IS").is_some();
    let from = env::var("QUINN_SRC").expect("QUINN_SRC names quinn-proto's src folder");
    let to = env::var("OUT_DIR").unwrap();
    for file in FILES {
        let path = Path::new(&from).join(file);
        println!("cargo:rerun-if-changed={}", path.display());
        let mut text = fs::read_to_string(&path).expect(file);
        let changes = CHANGES.iter().filter(|change| change.file == file);
        for change in changes.filter(|change| !(change.agreed && as_is)) {
            assert_eq!(
                text.matches(change.old).count(),
                1,
                "{file}: {}",
                change.old
            );
            text = text.replace(change.old, change.new);
        }
        fs::write(Path::new(&to).join(file), text).unwrap();
    }
    let modules: String = FILES
        .iter()
        .map(|file| {
            format!(
                "#[path = {:?}] pub(crate) mod {};\n",
                Path::new(&to).join(file),
                file.trim_end_matches(".rs")
            )
        })
        .collect();
    fs::write(Path::new(&to).join("quinn.rs"), modules).unwrap();
}
