//! libkinphlor.a against OpenSSL's libcrypto and libgcrypt, and its worst headers against lists made here.
//! Its last line is `host: N checks passed`.

mod cases;
mod worst_header;

use cases::Cases;
use shared::context::Peers;
use shared::{parts, random};

fn main() {
    let mut cases = Cases {
        peers: Peers::new(),
        random: random::Random(parts::seed("host")),
    };
    parts::run("host", &mut cases, &[
        ("RFC 5297, appendix A, by the peers", Cases::peers_have_the_rfcs_examples),
        ("the table of answers", Cases::answers),
        ("every length, header and key width", Cases::lengths),
        ("every bit of a record damaged", Cases::every_bit),
        ("rings with a record's key at any slots", Cases::ring_slots),
        ("ring buffers of every length", Cases::ring_buffers),
        ("tags searched by their end", Cases::searched_tags),
        ("tags chosen by where the counter carries", Cases::chosen_tags),
        ("the worst header beside every list of few bytes", worst_header::every_list),
        ("the worst header beside a greedy list", worst_header::greedy_lists),
        ("figures that no header list is planned for", worst_header::refused),
    ]);
}
