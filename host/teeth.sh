#!/bin/sh
# Whether the comparison has teeth: each line below spoils one rule in a copy of keen, and compare has to see it or, of the calls on a
# table, requests. All copies stand beside keen in one build of the host; keen itself must show no difference. It needs no archive.
#   host/teeth.sh
set -eu
here=$(cd "$(dirname "$0")" && pwd)
. "$here/machine.sh"
work=$(mktemp -d)
trap 'rm -rf "$work"' EXIT
cp -r "$here/src" "$work/src"
count=0
# The program that has to see what is spoiled.
by=compare

# spoil FILE EDIT WHAT: an edit that changes nothing is a fault of this list.
spoil() {
    count=$((count + 1))
    copy=spoiled_$count
    cp -r "$here/src/keen" "$work/src/$copy"
    sed -i "$2" "$work/src/$copy/$1"
    if cmp -s "$here/src/keen/$1" "$work/src/$copy/$1"; then
        echo "teeth: $3: the edit changes nothing" >&2
        exit 1
    fi
    sed -i "s/\"keen\"/\"$copy\"/" "$work/src/$copy/mod.rs"
    echo "pub mod $copy;" >>"$work/src/lib.rs"
    sed -i "/^ *&Keen,/a &crate::$copy::Keen," "$work/src/planner.rs"
    echo "$3" >"$work/$copy.what"
    echo "$by" >"$work/$copy.by"
}

# How long a window may be before a second instance of a flow counts, from when the flow is let in.
alone='record.period + 1 - bound'
by_deadline='record.period + 1 - record.deadline'
spoil bound.rs "s/$alone/record.period/" "ceil(R / P) instances"
spoil bound.rs "s/$alone/record.period - bound/" "ceil((R + R_h) / P) instances"
spoil bound.rs "s/$alone/$by_deadline/" "each flow above carried in up to its deadline"
spoil bound.rs "s/$alone/if l == 0 { $by_deadline } else { $alone }/" "the first flow carried in up to its deadline"
spoil bound.rs 's/if bound > alone {/if 2 * bound > period + 1 {/' "each flow above carried in up to the bound of the flow itself"
spoil bound.rs 's/^ *self.count += 1;$/&for h in 0..l { self.alone[h] = (self.periods[h] + 1).saturating_sub(bound); }/' "the carry-in of the flow just above for all"
spoil bound.rs 's/if thirds != 0 {/if false {/' "no more than two instances"
spoil bound.rs 's/bound <= record.deadline/bound < record.deadline/' "a bound that equals the deadline refused"
spoil bound.rs 's/u64::from(columns.marks(step))/((1 << len) - 1)/' "I as the length of the plan above"
spoil bound.rs 's/taken(&digits, end))/words.map(|word| (word >> (end - len) \& ((1 << len) - 1)).count_ones()).iter().sum())/' "I as the number of marks"
spoil bound.rs 's/let above = 0\.\./let above = self.count.saturating_sub(1)../' "only the flow just above in the bound"

# What a node of the plan disturbs, and what a node asked for does. In the upper half of a part are the steps that are sent.
own='self.nodes\[disturbed\] |= part'
above='\*column |= parts\[disturbed\]'
spoil bound.rs "s/$own/& << UPPER >> UPPER/" "a bound where its own senders disturb no receiver"
spoil bound.rs "s/$own/& >> UPPER << UPPER/" "a bound where its own receivers disturb no sender"
spoil bound.rs "s/$above/& >> UPPER << UPPER/" "a bound where senders above disturb no receiver"
spoil bound.rs "s/$above/& << UPPER >> UPPER/" "a bound where receivers above disturb no sender"
spoil bound.rs "s/$own/& >> UPPER << UPPER/; s/$above/& << UPPER >> UPPER/" "a bound without acknowledgements, with slots that have them"
spoil bound.rs "s/$above/& | parts[disturbed] >> UPPER/" "two senders in conflict in the bound"
spoil bound.rs "s/$above/& | parts[disturbed] << UPPER/" "two receivers in conflict in the bound"

spoil slot.rs 's/from | to | sender_row/from | to/' "a slot where its senders disturb no receiver"
spoil slot.rs 's/from | to | receiver_row/from | to/' "a slot where its receivers disturb no sender"
spoil slot.rs 's/(self.receivers & sender_row) | //' "a slot where a further sender disturbs no receiver"
spoil slot.rs 's/ | (self.senders & receiver_row)//' "a slot where a further receiver disturbs no sender"
spoil slot.rs 's/self.receivers & sender_row/(self.receivers | self.senders) \& sender_row/' "two senders in conflict in the slot"
spoil slot.rs 's/self.senders & receiver_row/(self.senders | self.receivers) \& receiver_row/' "two receivers in conflict in the slot"
spoil slot.rs 's/^\( *self.[a-z_]*\) |= /\1 = /' "only the grant just made"
spoil slot.rs 's/slot > END_OF_SLOTS/slot >= END_OF_SLOTS/' "4,000,000,000 as a malformed slot"
spoil slot.rs 's/record.phase >= slot/record.phase > slot/' "an unfinished flow in the slot of its phase"
spoil slot.rs 's/done > len ||/done > len + 1 ||/' "a byte one above L"
spoil slot.rs 's/position(|&byte| byte != 0)/position(|\&byte| byte > 1)/' "an unused byte of 1"
spoil slot.rs 's/late.trailing_zeros()/31 - late.leading_zeros()/' "the last flow with code 11"
spoil slot.rs 's/if late != 0 {/if false {/' "no code 11"
spoil mod.rs 's/GRANT_BYTES \* book.flows()/GRANT_BYTES * book.flows() - usize::from(book.flows() > 0)/' "a grant buffer one byte short"
spoil book.rs 's/self.phase > MAX_PHASE/self.phase >= MAX_PHASE/' "phase 60,000 refused"
spoil book.rs 's/records\[..RECORD_BYTES \* i\]/records[RECORD_BYTES * i.saturating_sub(1)..RECORD_BYTES * i]/' "equal ids seen only next to each other"
spoil book.rs 's/(beyond | 1 << x)/(beyond << 1 | 1 << x)/' "bit n let through"
spoil book.rs 's/sender(step) != receiver(last)/(sender(step) != receiver(last)) \& (sender(step) != sender(last))/' "a step from the same sender let through"
spoil book.rs 's/breaks == between_plans/breaks <= between_plans + 1/' "one jump let through"

spoil why.rs 's/(0..place).find(blocks)/(0..place).rev().find(blocks)/' "the last blocker for the first"
spoil why.rs 's/goes(h) && step(h)/step(h)/' "a blocker that itself waits"
spoil why.rs 's/slot < self.record(place).phase/false/' "finished before the first release"
spoil why.rs 's/slot < self.record(place).phase/slot <= self.record(place).phase/' "not released in the slot of the first release"
spoil why.rs 's/code_of(ran) != DONE/& \&\& (code_of(ran) != UNFINISHED || place < self.flows())/' "15 before 11"
spoil why.rs 's/ - usize::from(goes(i))//' "what is told by the steps behind those that are granted"
spoil why.rs 's/ | answers != 0/ != 0/' "a blocker without acknowledgements"
spoil mod.rs 's/area.get(..AREA_BYTES)/[area, \&[0]].concat().get(..AREA_BYTES)/' "why on an area one byte short"
spoil mod.rs 's/book.why(area, place)/book.why(area, place % 256)/' "a place by its lowest byte"

by=requests
spoil bound.rs "s/$alone/$by_deadline/" "in adding and in the check of a table, each flow above carried in up to its deadline"
old='^ *test_figures(&old, table)?;$'
spoil table.rs "s/$old//" "no code 17"
spoil table.rs "/$old/{h;d};/let record = test_newcomer/{x;G}" "17 behind 14 and 15"
spoil table.rs 's/packed(BAD_FIGURE, l)/packed(BAD_FIGURE, book.flows() - 1)/' "the last flow with code 17"
spoil table.rs 's/above(&table.figures, l) == line/& \&\& table.figures[figure_at(l, l)] == 0/' "a figure of a flow and itself tested"
spoil table.rs 's/above_mut(&mut table.figures, l).copy_from_slice(line);//' "reading without figures"
spoil table.rs 's/new.fill(0)/new.copy_from_slice(figures)/' "figures that say nothing left by adding"
spoil table.rs 's/old.line(plan, old.plans(), above_mut(new, place));//' "the line of a newcomer left out"
spoil table.rs 's/old.line(lower, once(plan), &mut line\[place..=place\]);//' "the column of a newcomer left out"
spoil table.rs 's/put_in(line, above(figures, l), place/put_in(line, above(figures, l), l/' "figures behind a newcomer not moved"
spoil table.rs 's/bounds(new).map(|_| ())/&.or_else(|answer| if number_of(answer) > place { Ok(()) } else { Err(answer) })/' "the flows below a newcomer not tested"
spoil table.rs 's/place.max(twin + 1)/place/' "the newcomer with code 6 for an id that stands behind it"
spoil table.rs 's/^ *Book::of_table(table)?;$/Book::of_table(table)?.admit()?;/' "a check of a table by the right figures too"

flags="--edition 2021 -O -A warnings $rust_target"
$rustc $flags --crate-type rlib --crate-name slot_host -o "$work/libslot_host.rlib" "$work/src/lib.rs"
for program in compare requests; do
    $rustc $flags --extern "slot_host=$work/libslot_host.rlib" -o "$work/$program" "$work/src/bin/$program.rs"
done

# alike PLANNER PROGRAM: whether the program finds it and plain alike. It may find a difference, and must not fail in another way.
alike() {
    case $2 in
    compare) set -- compare --between "$1" plain ;;
    requests) set -- requests --of "$1" --calls 10000 ;;
    esac
    program=$work/$1
    shift
    if $emulator "$program" "$@" >"$work/log" 2>&1; then
        return 0
    fi
    grep -q MISMATCH "$work/log" || { cat "$work/log" >&2; exit 1; }
    return 1
}

for program in compare requests; do
    alike keen "$program" || { cat "$work/log" >&2; exit 1; }
done
missed=0
for copy in $(seq -f 'spoiled_%g' "$count"); do
    if alike "$copy" "$(cat "$work/$copy.by")"; then
        echo "teeth: $(cat "$work/$copy.what"): NOT SEEN"
        missed=$((missed + 1))
    else
        echo "teeth: $(cat "$work/$copy.what"): seen"
    fi
done

echo "teeth: of $count spoiled rules $missed not seen"
[ "$missed" = 0 ]
