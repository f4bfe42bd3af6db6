//! Counts of what the runs reached, for the summary.

macro_rules! tally {
    ($($field:ident: $label:literal,)*) => {
        #[derive(Default)]
        pub struct Tally {
            /// Refused calls, by the fault's number.
            pub faults: [u64; 9],
            $(pub $field: u64,)*
        }

        impl Tally {
            pub fn add(&mut self, other: &Tally) {
                for (sum, more) in self.faults.iter_mut().zip(other.faults) {
                    *sum += more;
                }
                $(self.$field += other.$field;)*
            }

            /// The summary, a line for each count.
            pub fn lines(&self) -> Vec<String> {
                let mut lines = vec![$(format!("{:>9} {}", self.$field, $label),)*];
                for (number, times) in self.faults.iter().enumerate().skip(1) {
                    lines.push(format!("{times:>9} refused by fault {number}"));
                }
                lines
            }
        }
    };
}

tally! {
    runs: "runs",
    calls: "calls",
    capacity_0: "runs with capacity 0",
    unequal: "runs with slots != wakes",
    pushes: "pushes accepted",
    fronts: "of them at the front",
    reused: "of them into a slot that was occupied before",
    polls: "polls",
    yields: "polls that gave an output or item",
    nones: "polls that gave none",
    posts: "polls with words in the post",
    self_wakes: "self-wakes",
    turns_61: "polls with exactly 61 turns",
    turns_more: "polls with more than 61 turns",
    polled_notices: "notices given by polls",
    parked: "outputs parked",
    unparked: "outputs yielded in 0 turns",
    handed: "tokens handed out",
    cloned: "tokens cloned",
    woken: "wakes carried out",
    woken_notices: "of them with a notice",
    dropped: "tokens dropped",
    stale: "wakes by a stale token of a reused slot",
    vacant: "wakes of a vacant slot",
    forged: "forged tokens accepted",
    borrowed: "forged tokens spent on another group's count",
    groups: "groups made",
    regrown: "of them behind an earlier group",
    most_groups: "of them the fourth or later of its set",
    dropped_groups: "groups dropped",
    dropped_wakes: "wakes of a dropped group",
    ended: "streams ended",
    mail_zero: "mailbags that met the word 0",
    mail_missing: "mailbags that met no word",
    mail_end: "mailbags that met the word 2^64 - 1",
    last_numbers: "mailbags at the number 4294967295",
    hidden_ends: "growing merges pending with no stream, recorded as none",
    odd_pending: "sets pending with no future",
}
