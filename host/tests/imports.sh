#!/usr/bin/env bash
# The statements in crates/demands/specs take from the other crates the calls' own definitions and promises,
# the declared types and the standards' functions, and nothing else: a wrong bound, row or builder would judge itself.
# A name that is not on its list fails, and so does one that stands there and is not taken.
set -eu -o pipefail

# names FILE...: what the files take from other crates, a name a line with its module. The kit's Prelude is no crate of ours.
names() {
    awk '/^use Rattle\.demands\.specs\.[A-Z][A-Za-z]*\.\{[^{}]+\}$/ && !/specs\.Cases\./ { next }
        /^use Rattle\.std\.specs\.Prelude\.\{[^{}]+\}$/ { next }
        /^use Rattle\.[^ {}]+\.\{[^{}]+\}$/ {
            sub(/^use Rattle\./, "")
            module = taken = $0
            sub(/\.\{.*/, "", module)
            sub(/.*\.\{/, "", taken)
            sub(/\}$/, "", taken)
            for (n = split(taken, name, /, /); n > 0; n--) print module, name[n]
            next
        }
        /^ *--/ { next }
        /Rattle[.·]/ { print FILENAME ":" FNR, "another form" }' "$@" | sort -u
}

# list: the lines of the standard input that are no headings, one for each name behind a module.
list() {
    awk '/^ / { for (i = 2; i <= NF; i++) print $1, $i }' | sort -u
}

# compare WHAT LIST: the names on the standard input are those of the list.
compare() {
    diff "$2" - >"$2.diff" || {
        echo "imports: FAILED: $1 (<: on the list alone, >: taken alone)" >&2
        grep '^[<>]' "$2.diff" >&2
        exit 1
    }
}

scratch=$(mktemp -d)
trap 'rm -rf "$scratch"' EXIT

# The twelve cases are shown of the written definitions, rule 2.6, the tail's length among them.
list >"$scratch/cases" <<'END'
the standards' functions, and the tail's length
 field.specs.Field mul sbox
 cmac.specs.Cmac double pad
 s2v.specs.S2v xorend tail_length
 counter.specs.Counter initial_counter counter_block
END

list >"$scratch/statements" <<'END'
the standards' functions, xors, and the header strings
 octets.specs.Octets xors
 aes.specs.Aes aes
 aes.specs.Cipher cipher
 aes.specs.KeyExpansion key_expansion
 cmac.specs.Cmac subkeys chain
 header.specs.Header strings
 s2v.specs.S2v absorb_strings header_result tag_from
 counter.specs.Counter initial_counter counter_block
 keystream.specs.KeyStream xor_stream
 whole.specs.Siv tag_of streamed sealed opened
declared types
 aes.specs.declared.Expansion Expansion
 aes.specs.declared.KeyRefusal.TheVariants Length
 answers.specs.declared.Refusal.TheVariants KeyLength HeaderCount HeaderLengths TooLong SealedLength OutputShort
 answers.specs.declared.Refusal.TheVariants ScratchShort Forged State EmptyNonce RingLength HeaderPlan
 whole.specs.declared.Report Report
 whole.specs.declared.RingAnswer RingAnswer
 head.specs.declared.Head Head
 head.specs.declared.Made Made
 stream.specs.declared.Stream Stream
 stream.specs.declared.Step Step
the calls' definitions, and what a definition gives
 answers.specs.Answer Answer Outcome outcome_of
 whole.specs.Calls CallResult seal_call open_call
 whole.specs.Ring RingResult open_ring
 whole.specs.Work planned_work
 head.specs.Head MakeResult make_head extend_head
 stream.specs.Steps StepResult begin_sealer begin_opener begin_sealer_from begin_opener_from
 stream.specs.Steps add_step turn_step write_step close_step feed_step finish_step
 worst_header.specs.WorstHeader GivesWorst
 kinphlor.specs.Interface seal_from_c open_from_c open_ring_from_c packed packed_ring planned_from_c GivesWorstFromC
the promises, which Promises.antt says in parts, and what they speak of
 octets.specs.Octets Lent LentMut
 aes.specs.Aes key_number Expands
 whole.specs.Calls Performs
 whole.specs.Ring PerformsRing
 head.specs.Head DidMake
 stream.specs.Steps DidStep
 kinphlor.specs.Interface PerformsFromC PerformsRingFromC
END

specs=crates/demands/specs
names "$specs/Cases.antt" | compare 'the twelve cases' "$scratch/cases"
mapfile -t files < <(find "$specs" -name '*.antt' ! -path "$specs/Cases.antt")
names "${files[@]}" | compare 'the statements' "$scratch/statements"
echo "imports: $(wc -l <"$scratch/statements") names that the statements take, and $(wc -l <"$scratch/cases") for the twelve cases"
