//! The repository's sample tiles, and the lines that are expected of the program.

use mvtgate::Profile;
use std::fs;
use std::path::{Path, PathBuf};

pub const VALID: &str = r#"{"ok":true}"#;
pub const PROFILES: [Profile; 2] = [Profile::Polygon, Profile::Feature];

/// A tile, and the lines of which `check` may write any one.
pub struct Sample {
    pub name: String,
    pub tile: Vec<u8>,
    pub expected: Vec<String>,
}

pub fn samples(profile: Profile) -> Vec<Sample> {
    let tiles = Path::new(env!("CARGO_MANIFEST_DIR")).join("../../tiles");
    let mut paths: Vec<PathBuf> =
        fs::read_dir(tiles.join("expected")).unwrap().map(|entry| entry.unwrap().path()).collect();
    paths.retain(|path| path.extension().map_or(false, |it| it == "check"));
    paths.sort();
    assert!(!paths.is_empty());
    paths.iter().map(|path| sample(&tiles, path, profile)).collect()
}

fn sample(tiles: &Path, expected: &Path, profile: Profile) -> Sample {
    let name = expected.file_stem().unwrap().to_str().unwrap().to_string();
    let of_feature = expected.with_extension("check_feature");
    let lines = match profile {
        Profile::Feature if of_feature.exists() => of_feature,
        _ => expected.to_path_buf(),
    };
    Sample {
        tile: fs::read(tiles.join(&name).with_extension("mvt")).unwrap(),
        expected: fs::read_to_string(lines).unwrap().lines().map(str::to_string).collect(),
        name,
    }
}
