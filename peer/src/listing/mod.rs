//! The listing for `bench`: told situations in the order of `TOPICS`, a pseudo-random part, and an end.

mod mixture;
mod packets;
mod power;
mod script;
mod sessions;
mod wire;

use script::Script;

const SEED: u64 = 20_240_229;

type Topic = (&'static str, fn(&mut Script));

/// Each topic begins with no mark, no session, an idle receiver and a supply without end; from the first
/// update on the vector is set, too.
const TOPICS: [Topic; 25] = [
    ("version query", wire::version_query),
    ("stray bytes and bad frames", wire::noise),
    ("frames of the greatest length", wire::greatest_frames),
    ("frames cut by a silence", wire::cut_frames),
    ("unknown commands", wire::unknown_commands),
    ("a first update and its replay", power::first_update),
    ("updates cut at each step", power::cut_updates),
    ("the reset vector", power::vector),
    ("mass erase, whole and cut", power::mass_erase),
    ("sessions that end", sessions::ended_sessions),
    ("sessions that are kept", sessions::kept_sessions),
    ("sessions that are replaced", sessions::replaced_sessions),
    ("packets that open as the other kind", packets::other_kind),
    ("new keys", packets::new_keys),
    ("packet lengths", packets::packet_lengths),
    ("IVs", packets::ivs),
    ("damaged packets", packets::damaged_packets),
    ("packet numbers", sessions::packet_numbers),
    ("versions", sessions::versions),
    ("turns", sessions::turns),
    ("borders of the map", packets::borders),
    ("malformed lines", wire::malformed_lines),
    ("supplies", power::supplies),
    ("pseudo-random calls", mixture::mixture),
    ("the last versions", power::last_versions),
];

pub fn write() -> Script {
    let mut script = Script::new(SEED);
    for (name, tell) in TOPICS {
        script.topic(name);
        tell(&mut script);
    }
    // Bytes behind the last line's end.
    script.text.extend(b"B        128");
    script
}

#[cfg(test)]
mod tests {
    use super::*;
    use crate::bench::run;
    use std::collections::{BTreeSet, HashMap};

    /// What is printed for the listing, with places. The told answers are checked while it is written.
    fn printed(script: &Script) -> String {
        let mut printed = Vec::new();
        run(&script.text[..], &mut printed, true).unwrap();
        String::from_utf8(printed).unwrap()
    }

    #[test]
    fn the_listing_is_written_and_has_every_refusal_of_the_wire() {
        let script = write();
        let printed = printed(&script);
        assert_eq!(printed.lines().count(), script.lines);
        let mut counts = [0; 100];
        for line in printed.lines() {
            let refusal: usize = line[6..10].trim().parse().unwrap();
            counts[refusal] += 1;
        }
        let told = [0, 3, 8, 9, 10, 11, 12, 20, 21, 22, 23, 30, 31, 81, 82, 83, 84];
        for (refusal, &count) in counts.iter().enumerate() {
            assert_eq!(count > 0, told.contains(&refusal), "refusal {refusal}");
        }
        assert!(script.lines <= 80_000 && script.text.len() < 1_000_000);
    }

    /// Each refusal that has a place, at places that tell a mistaken one: every choice where there are few,
    /// and both sides of 255 where a place has more than one byte.
    #[test]
    fn the_listing_has_places_of_every_kind() {
        let mut met: HashMap<u8, BTreeSet<usize>> = HashMap::new();
        for line in printed(&write()).lines() {
            let refusal = line[6..10].trim().parse().unwrap();
            met.entry(refusal).or_default().insert(line[18..29].trim().parse().unwrap());
        }
        let all_but = |known: &[usize]| (0..=255).filter(|byte| !known.contains(byte)).collect();
        let wanted: [(u8, Vec<usize>); 12] = [
            (9, all_but(&[0x30, 0x31])),
            (10, vec![1, 43, 50, 52, 299]),
            (11, vec![0, 14, 15]),
            (20, vec![0, 1, 2, 256, 65535]),
            (21, vec![1]),
            (22, vec![2, 3, 4, 258, 260, 65535]),
            (23, vec![0, 0x17FF, 0x1A00, 0x43FF, 0xF000, 0xFF7F, 0x14000, 0x24400, 0xFF_FF80, 0xFF_FFFF]),
            (30, vec![1, 3, 4, 128, 255]),
            (31, vec![0, 1, 2, 3, 4, 5, 9, 254, 255]),
            (81, all_but(&[0x80])),
            (82, vec![0, 0x62E9, 0xE2E8, 0xE862, 65535]),
            (84, vec![300, 301, 511, 512, 0x8000, 0x8080, 0xFF00, 65535]),
        ];
        for (refusal, places) in wanted {
            for place in places {
                assert!(met[&refusal].contains(&place), "refusal {refusal}, place {place}");
            }
        }
        for refusal in [0, 3, 8, 12, 83] {
            assert_eq!(met[&refusal], BTreeSet::from([0]), "refusal {refusal}");
        }
    }
}
