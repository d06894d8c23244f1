//! What the command asks of the machine: how much memory there is for it.

use std::fs;
use std::path::{Path, PathBuf};

/// The memory that this process can have, in bytes: the machine's, or less where its control group, or one above it, has
/// a limit. As Linux tells it; elsewhere it is not known.
pub fn memory() -> Option<u128> {
    memory_below(Path::new("/"))
}

/// The same, of a machine whose files stand in this folder.
fn memory_below(root: &Path) -> Option<u128> {
    let machine = installed(root);
    let groups = limits(root);
    machine.into_iter().chain(groups).min()
}

fn installed(root: &Path) -> Option<u128> {
    let told = fs::read_to_string(root.join("proc/meminfo")).ok()?;
    let line = told
        .lines()
        .find_map(|line| line.strip_prefix("MemTotal:"))?;
    let kilobytes: u128 = line.trim().strip_suffix(" kB")?.trim().parse().ok()?;
    Some(kilobytes << 10)
}

/// The limits of the control groups that this process is in, of both versions. A group's own limit may be above that of a
/// group that it lies in, and the lowest holds.
fn limits(root: &Path) -> Vec<u128> {
    let told = fs::read_to_string(root.join("proc/self/cgroup")).unwrap_or_default();
    let mut found = Vec::new();
    for line in told.lines() {
        let mut parts = line.splitn(3, ':').skip(1);
        let (Some(kinds), Some(group)) = (parts.next(), parts.next()) else {
            continue;
        };
        if kinds.is_empty() {
            found.extend(upwards(root.join("sys/fs/cgroup"), group, "memory.max"));
        } else if kinds.split(',').any(|kind| kind == "memory") {
            let folder = root.join("sys/fs/cgroup/memory");
            found.extend(upwards(folder, group, "memory.limit_in_bytes"));
        }
    }
    found
}

/// The numbers in files of this name, from the group's folder up to the topmost. In a container the group's own path may not be
/// there, and then the topmost folder is the group's. `max` is no number.
fn upwards(top: PathBuf, group: &str, name: &str) -> Vec<u128> {
    let mut folder = top.join(group.trim_start_matches('/'));
    let mut found = Vec::new();
    while folder.starts_with(&top) {
        let told = fs::read_to_string(folder.join(name)).unwrap_or_default();
        found.extend(told.trim().parse::<u128>().ok());
        if !folder.pop() {
            break;
        }
    }
    found
}

#[cfg(test)]
mod tests {
    use super::*;

    /// A machine of 1,000 kB with these files beside that.
    fn machine(test: &str, files: &[(&str, &str)]) -> Option<u128> {
        let root = std::env::temp_dir().join(format!("bed-machine-{test}-{}", std::process::id()));
        let meminfo = ("proc/meminfo", "MemTotal:        1000 kB\nMemFree: 1 kB\n");
        for (name, text) in files.iter().chain([&meminfo]) {
            let path = root.join(name);
            fs::create_dir_all(path.parent().unwrap()).unwrap();
            fs::write(path, text).unwrap();
        }
        let found = memory_below(&root);
        fs::remove_dir_all(&root).unwrap();
        found
    }

    #[test]
    fn the_lowest_limit_holds() {
        assert_eq!(machine("none", &[]), Some(1_024_000));
        let v2 = ("proc/self/cgroup", "0::/a/b\n");
        assert_eq!(
            machine("v2", &[v2, ("sys/fs/cgroup/a/b/memory.max", "700000\n")]),
            Some(700_000)
        );
        assert_eq!(
            machine(
                "above",
                &[
                    v2,
                    ("sys/fs/cgroup/a/b/memory.max", "max\n"),
                    ("sys/fs/cgroup/a/memory.max", "600000\n"),
                ]
            ),
            Some(600_000)
        );
        assert_eq!(
            machine("container", &[v2, ("sys/fs/cgroup/memory.max", "500000\n")]),
            Some(500_000)
        );
        assert_eq!(
            machine("more", &[v2, ("sys/fs/cgroup/a/b/memory.max", "9000000\n")]),
            Some(1_024_000)
        );
        let v1 = ("proc/self/cgroup", "5:cpu,cpuacct:/a\n4:memory:/c\n0::/a\n");
        assert_eq!(
            machine(
                "v1",
                &[
                    v1,
                    ("sys/fs/cgroup/memory/c/memory.limit_in_bytes", "400000\n"),
                    (
                        "sys/fs/cgroup/memory/memory.limit_in_bytes",
                        "9223372036854771712\n"
                    ),
                ]
            ),
            Some(400_000)
        );
    }
}
