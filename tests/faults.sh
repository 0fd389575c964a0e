#!/usr/bin/env bash
# Deliberate faults, each in a copy of one side: the differential tests must find every one of them.
#   tests/faults.sh          faults of the reader and of the models of the ends, of named places, of the order of two
#                            ends and of the box, and one of the library's exported functions
#   tests/faults.sh --long   also ends that clause c shuts out, and one of the library's tables: the crates are proved anew for each
# A fault of the library is one of its definitions and its code together, so that it is proved and built: the kind that no proof finds.
# Needs what tests/run.sh has built.
set -u
root=$(cd "$(dirname "$0")/.." && pwd)
work=$(mktemp -d)
trap 'rm -rf "$work"' EXIT
missed=0

# Replaces a text that must be there once, in the copy.
change() { # FILE OLD NEW
    if ! OLD=$2 perl -0ne '$n = () = /\Q$ENV{OLD}\E/g; exit($n != 1)' "$1"; then
        echo "$1: '$2' doesn't stand there once"
        exit 1
    fi
    OLD=$2 NEW=$3 perl -0pi -e 's/\Q$ENV{OLD}\E/$ENV{NEW}/' "$1"
}

fresh_reader() {
    rm -rf "$work/tests"
    mkdir -p "$work/tests"
    for part in reader outside; do
        mkdir "$work/tests/$part"
        (cd "$root/tests/$part" && tar cf - --exclude=./target .) | tar xf - -C "$work/tests/$part"
    done
}

# Builds the copies with the library of a folder, and expects differences: of the reader's side, or in lists of calls
# (calls), all or those of one kind.
expect() { # WHAT LIBRARY [PROGRAM [KIND]]
    if ! (cd "$work/tests/outside" && FTD_LIBRARY=$2 CARGO_TARGET_DIR=$work/cargo CARGO_PROFILE_RELEASE_LTO=off \
        cargo build --release --offline --quiet); then
        echo "$1: the copy doesn't build"
        exit 1
    fi
    if "$work/cargo/release/${3:-differ}" 100000 1 ${4:-} >"$work/out" 2>&1; then
        echo "MISSED: $1"
        missed=$((missed + 1))
    elif grep -q '^DIFFERENCE' "$work/out"; then
        echo "caught: $1"
        grep -m1 -A2 '^DIFFERENCE' "$work/out" | cut -c1-160 | sed 's/^/    /'
    else
        echo "$1: the test broke off:"
        tail -3 "$work/out"
        exit 1
    fi
}

echo "- the reader"
fresh_reader
change "$work/tests/reader/src/packet.rs" 'extension_length > 127' 'extension_length > 126'
expect "the longest extension is 126" "$root/target/lib"
fresh_reader
change "$work/tests/reader/src/cut.rs" 'to + length - from > MOST_CONTENT' 'to + length - from >= MOST_CONTENT'
expect "a packet is cut one byte early" "$root/target/lib"
fresh_reader
change "$work/tests/reader/src/items.rs" '(b == 0x7F)' '(b == 0x7E)'
expect "0x7F is text, and 0x7E isn't" "$root/target/lib"
fresh_reader
change "$work/tests/reader/src/items.rs" 'map_or(0, |last| last + 1)' 'map_or(0, |last| last)'
expect "a text is read without its last byte" "$root/target/lib"
fresh_reader
change "$work/tests/reader/src/given.rs" 'saturating_sub(sign.len() + point)' 'saturating_sub(point)'
expect "a negative number is written a digit too wide" "$root/target/lib"
fresh_reader
change "$work/tests/reader/src/plain.rs" 'MESSAGE_HEADER..=MESSAGE_HEADER + MOST_CONTENT' 'MESSAGE_HEADER..MESSAGE_HEADER + MOST_CONTENT'
expect "type 0x01 with a body of 4,096 is refused with 3, not as a message packet" "$root/target/lib"
fresh_reader
change "$work/tests/reader/src/start.rs" 'START_FIELD: u32 = 0x0004' 'START_FIELD: u32 = 0x0005'
expect "the start field has another FID" "$root/target/lib"
fresh_reader
change "$work/tests/reader/src/calendar.rs" '(day + 1..).find' '(day + 1..day + 47).find'
expect "the next trading day is looked for among 46 days" "$root/target/lib"
fresh_reader
change "$work/tests/reader/src/book.rs" 'turnover.abs() > MOST_SUM' 'turnover.abs() >= MOST_SUM'
expect "a book's sum may not reach its limit" "$root/target/lib"
fresh_reader
change "$work/tests/reader/src/fix.rs" '(1..=9).contains(&text.len())' '(1..=10).contains(&text.len())'
expect "a number of a frame may have ten digits" "$root/target/lib"
fresh_reader
change "$work/tests/reader/src/fix.rs" 'last != 0 && all(7)' 'all(7)'
expect "a resend request for all that follow is refused" "$root/target/lib"
fresh_reader
change "$work/tests/reader/src/fix.rs" '} else if yes(43) {' '} else if pairs.iter().any(|field| field.0 == 43) {'
expect "a lower number with 43=N is again" "$root/target/lib"
fresh_reader
change "$work/tests/reader/src/packet.rs" 'PLACE => place.replace(u16_at(data, 0)).is_some(),' 'PLACE => place.replace(u16_at(data, 0)).is_some() && false,'
expect "tag 0x70 may stand twice" "$root/target/lib"

echo "- the models of the ends"
fresh_reader
change "$work/tests/reader/src/receiving.rs" 'if number <= one.last {' 'if number < one.last {'
expect "the last message is handed on again" "$root/target/lib" calls
fresh_reader
change "$work/tests/reader/src/receiving.rs" 'one.chain.take()' 'one.chain'
expect "a dropped chain stays" "$root/target/lib" calls
fresh_reader
change "$work/tests/reader/src/receiving.rs" 'last.wrapping_add(1)' 'last'
expect "Ask sends last received as next wanted" "$root/target/lib" calls
fresh_reader
change "$work/tests/reader/src/serving.rs" '|mark| mark == day.mark' '|mark| mark <= day.mark'
expect "yesterday's number counts after the mark rose" "$root/target/lib" calls
fresh_reader
change "$work/tests/reader/src/serving.rs" 'u16_at(head, 2) != 0 || ' ''
expect "an entry's zero bytes may be any" "$root/target/lib" calls
fresh_reader
change "$work/tests/reader/src/serving.rs" '(one.next, one.piece) = (Some(next), 0);' 'one.next = Some(next);'
expect "a login keeps the place of the unfinished message" "$root/target/lib" calls
fresh_reader
change "$work/tests/reader/src/serving.rs" 'let last = i + 1 == parts.len();' 'let last = i + 2 >= parts.len();'
expect "a message is stepped over with the packet before its last" "$root/target/lib" calls
fresh_reader
change "$work/tests/reader/src/several.rs" 'Err(row) => return Answer { stop: Stop::Refused(row), taken },' 'Err(row) => return Answer { stop: Stop::Refused(row), taken: taken - length },'
expect "a refused packet of a bufferful isn't taken" "$root/target/lib" calls
fresh_reader
change "$work/tests/reader/src/several.rs" '(false, bytes.as_ptr() as usize)' '(false, bytes.as_ptr() as usize + taken - length)'
expect "a content's place in a bufferful counts from its packet" "$root/target/lib" calls
fresh_reader
change "$work/tests/reader/src/receiving.rs" 'if piece.place.is_some_and(|place|' "if piece.chain != b'C' && piece.place.is_some_and(|place|"
expect "the place of a C isn't compared" "$root/target/lib" calls
fresh_reader
change "$work/tests/reader/src/receiving.rs" 'pieces.saturating_add(1).min(MOST_PIECES)' 'pieces.wrapping_add(1) % MOST_PIECES'
expect "the count of a chain's packets wraps" "$root/target/lib" calls
fresh_reader
change "$work/tests/reader/src/serving.rs" 'write_sent_packet(out, &header, &parts, i);' 'write_packet(out, &header, crate::cut::chain_letter(i, parts.len()), parts[i]);'
expect "the form of Send that writes one packet writes no place" "$root/target/lib" calls
fresh_reader
change "$work/tests/reader/src/serving.rs" 'used(i).max(self.open[i].reserve as u128)' 'used(i)'
expect "only the total of the log is checked, and reserves keep nobody out" "$root/target/lib" calls
fresh_reader
change "$work/tests/reader/src/serving.rs" 'used(i).max(self.open[i].reserve as u128)' 'used(i) + self.open[i].reserve as u128'
expect "a share is bytes used and reserve together, not the larger" "$root/target/lib" calls
fresh_reader
change "$work/tests/reader/src/serving.rs" 'day.shares(place, size) > room' 'day.shares(place, content.len()) > room'
expect "the head of an entry isn't counted in its series' share" "$root/target/lib" calls

# With the library's calls, or without the feature `checkpoints` with the definitions in their place. (`calls .. wrong`
# tries wrong programs in the library's place.)
echo "- the model of named places"
named=$work/tests/reader/src/checkpoints.rs
fresh_reader
change "$named" "(b'A'..=b'Z')" "(b'@'..=b'Z')"
expect "@ is a letter" "$root/target/lib" calls
fresh_reader
change "$named" '(1..=MOST_LETTERS)' '(0..=MOST_LETTERS)'
expect "a name may have no letter" "$root/target/lib" calls
fresh_reader
change "$named" 'None if self.places.len() >= MOST_NAMES' 'None if self.places.len() > MOST_NAMES'
expect "five names may be in use" "$root/target/lib" calls
fresh_reader
change "$named" 'Some(place) => self.places[place].kept = kept,' 'Some(_) => {}'
expect "keeping under a used name leaves what was there" "$root/target/lib" calls
fresh_reader
change "$named" 'Some(place) => self.places[place].kept = kept,
            None if self.places.len() >= MOST_NAMES => return Err(32),' '_ if self.places.len() >= MOST_NAMES => return Err(32),
            Some(place) => self.places[place].kept = kept,'
expect "32 for a used name too" "$root/target/lib" calls
fresh_reader
change "$named" 'end: &mut Receiving, name: &[u8]) -> Result<(), u8> {
' 'end: &mut Receiving, name: &[u8]) -> Result<(), u8> {
        self.place(name).ok_or(33)?;
'
expect "33 before 31" "$root/target/lib" calls
fresh_reader
change "$named" '(one.mark, one.last) = (then.mark, then.last);' 'one.last = then.last;'
expect "a return brings last back without the mark" "$root/target/lib" calls
fresh_reader
change "$named" '(one.logged_in, one.chain) = (false, None);' 'one.chain = None;'
expect "a return keeps the logins" "$root/target/lib" calls
fresh_reader
change "$named" '.copied().unwrap_or_default();' '.copied().unwrap_or(Position { series: one.series, mark: one.mark, last: one.last });'
expect "what was kept before the opening brings nothing back" "$root/target/lib" calls

# With the library's calls, or without the feature `order` with the definitions in their place.
echo "- the model of the order of two ends"
order=$work/tests/reader/src/order.rs
serving=$work/tests/reader/src/serving.rs
fresh_reader
change "$order" 'position(|(one, two)| one != two)' 'position(|(one, two)| one.1 != two.1)'
expect "TIDs aren't compared" "$root/target/lib" calls
fresh_reader
change "$order" 'before as u32 + 1' 'before as u32'
expect "the number that differs is counted from 0" "$root/target/lib" calls
fresh_reader
change "$order" 'if one.mark != two.mark {' 'if false {'
expect "the order doesn't compare marks" "$root/target/lib" calls
fresh_reader
change "$serving" '|one| all.push(one))?;
            all.push(last);' '|one| all.push(one));
            all.extend(last);'
expect "damage ends a list, a log cut short too, and isn't refused" "$root/target/lib" calls
fresh_reader
change "$serving" 'if published > 0 {
' 'if published > 0 {
            for one in self.open.iter().filter(|one| one.published > 0) {
                self.entry(log, one.series, one.published.into())?;
            }
'
expect "damage behind the last entry counts" "$root/target/lib" calls
fresh_reader
change "$serving" 'if published > 0 {
' 'log.get(..self.used)?;
        if published > 0 {
'
expect "with nothing published a log cut short is damage" "$root/target/lib" calls

# Where the library has the box. (The wrong boxes of `calls .. wrong` are tried with and without it.)
if grep -q '^default = .*"box"' "$root/tests/outside/Cargo.toml"; then
    echo "- the model of the box"
    relay=$work/tests/reader/src/relay.rs
    fresh_reader
    change "$relay" '|(mark, day)| mark < day)' '|(mark, day)| mark > day)'
    expect "a message of an older series is published in the new day" "$root/target/lib" calls
    fresh_reader
    change "$relay" 'mark) || lower(day)' 'mark)'
    expect "an answer below the open day is taken" "$root/target/lib" calls
    fresh_reader
    change "$relay" '        self.seats = [[None; MOST_SERIES]; SEATS];
' ''
    expect "an opening below keeps the seats logged in" "$root/target/lib" calls
    fresh_reader
    change "$relay" 'day.is_none_or(|day| mark > day)' 'day.is_none()'
    expect "the first day alone is opened below" "$root/target/lib" calls
    fresh_reader
    change "$relay" '!may_open(&series) || together > log as u128' '!may_open(&series)'
    expect "an opening below doesn't look at the reserves" "$root/target/lib" calls
    fresh_reader
    change "$relay" '        part[held..length].copy_from_slice(piece.content);
' ''
    change "$relay" "        if piece.chain == b'L' {
            let message" "        part[held..length].copy_from_slice(piece.content);
        if piece.chain == b'L' {
            let message"
    change "$relay" '[&part[..held], piece.content].concat()' 'part[..length].to_vec()'
    expect "a refused publication leaves its last piece in the chain buffer" "$root/target/lib" calls
    fresh_reader
    change "$relay" 'self.seats.get_mut(seat)' 'self.seats.get_mut(if seat < SEATS { seat / 2 } else { seat })'
    expect "two seats in one place" "$root/target/lib" calls
    fresh_reader
    change "$relay" 'SEATS: usize = 16' 'SEATS: usize = 15'
    change "$work/tests/outside/src/boxes.rs" 'PLACES: usize = SEATS *' 'PLACES: usize = 16 *'
    expect "seat 15 is refused" "$root/target/lib" calls
    echo "- the model of the box, in a row"
    fresh_reader
    change "$relay" '|(mark, day)| mark < day)' '|(mark, day)| mark > day)'
    expect "in a row a message of an older series is published in the new day" "$root/target/lib" calls row
    fresh_reader
    change "$relay" 'day.is_none_or(|day| mark > day)' 'day.is_none()'
    expect "in a row the first day alone is opened below" "$root/target/lib" calls row
    fresh_reader
    change "$relay" 'self.seats.get_mut(seat)' 'self.seats.get_mut(if seat < SEATS { seat / 2 } else { seat })'
    expect "in a row two seats in one place" "$root/target/lib" calls row
    fresh_reader
    change "$relay" 'self.below.publish(piece.series, piece.tid, &message, log)?;' 'self.below.publish(piece.series, piece.tid, piece.content, log)?;'
    expect "in a row a long message is published by its last piece" "$root/target/lib" calls row
fi

# A copy of the repository's library with one thing changed in code and definition, proved and built.
fresh_library() {
    rm -rf "$work/library"
    mkdir -p "$work/library/crates"
    for crate in ftd flow relay calendar book fix exports; do
        cp -R "$root/crates/$crate" "$work/library/crates/"
    done
    rm -rf "$work"/library/crates/*/out
    printf 'ftd:\nflow: ftd\nrelay: ftd flow\ncalendar: ftd\nbook: ftd\nfix: ftd\nexports staticlib: ftd flow relay calendar book fix\n' >"$work/library/crates.txt"
}
prove() {
    if ! (cd "$work/library/crates/exports" && rt lib) >"$work/proved" 2>&1; then
        tail -5 "$work/proved"
        echo "the faulty library isn't proved"
        exit 1
    fi
    mkdir -p "$work/library/target/lib"
    cp "$work/library/crates/exports/out/libexports.a" "$work/library/target/lib/libftd.a"
}

echo "- the library"
fresh_reader
fresh_library
change "$work/library/crates/exports/src/lib.rt" 'number: h.number,' 'number: h.tid,'
change "$work/library/crates/exports/specs/Numbers.antt" 'number = h.number;' 'number = h.tid;'
prove
expect "a message's number is its TID, and so says its definition" "$work/library/target/lib"
if [ "${1:-}" = --long ]; then
    # Ends of clause c. In the crate of the ends demand 3's proof refuses them; what the exported functions say of an end is theirs alone.
    fresh_library
    change "$work/library/crates/exports/src/receiving.rt" 'plain(end, 2, n, 0)' 'plain(end, 1, n, 0)'
    change "$work/library/crates/exports/specs/Receiving.antt" 'plain_with e 2 n 0' 'plain_with e 1 n 0'
    prove
    expect "Receive answers again for a piece that is held, before anything came" "$work/library/target/lib" calls
    fresh_library
    change "$work/library/crates/exports/src/receiving.rt" 'answer: 3,' 'answer: 1,'
    change "$work/library/crates/exports/specs/Receiving.antt" 'answer = 3;' 'answer = 1;'
    prove
    expect "Receive only raises its number, and hands nothing on" "$work/library/target/lib" calls
    fresh_library
    # Of the whole Send; the form that writes one packet has `last` behind it.
    change "$work/library/crates/exports/src/serving.rt" $'answer: 1,\n            refusal: 0,\n        },' $'answer: 0,\n            refusal: 0,\n        },'
    change "$work/library/crates/exports/specs/Serving.antt" 'number = k; answer = 1; refusal = 0 }' 'number = k; answer = 0; refusal = 0 }'
    prove
    expect "Send answers none with one left" "$work/library/target/lib" calls
    fresh_library
    change "$work/library/crates/ftd/src/tags.rt" '= [0, 4, 1, 1, 0, 4, 2, 2];' '= [0, 4, 1, 1, 0, 4, 3, 2];'
    change "$work/library/crates/ftd/specs/Tags.antt" 'known_tag 0x06 2' 'known_tag 0x06 3'
    prove
    expect "tag 0x06 has three bytes, and so says its definition" "$work/library/target/lib"
fi
[ "$missed" -eq 0 ]
