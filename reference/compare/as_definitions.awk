# Turns runs as `reference runs` prints them into statements about the definitions: each run's answers, and the slots and levels that it leaves.
# Of the runs printed, which are of seed `seed`, it takes those numbered in `chosen`. It fails unless every refusal is among them.
function bool(x) { return x == 1 ? "true" : "false" }
# the words of the line from the i-th on, as a list
function numbers(i,   s) { s = ""; for (; i <= NF; i++) s = s $i " ∷ "; return s == "" ? "[]" : "(" s "[])" }
function refusal(n) { return NAMES[n] }
# notes that something was refused by a number
function refused(what) { if (!(what in noted)) refusals = refusals (refusals == "" ? "; refused: " : ", ") what; noted[what] = seen[what] = 1 }
# ends the answer that is being read
function close_answer() { if (open_answer) { answers[++answer_count] = "accepted " bytes " " (entries == "" ? "[]" : "(" entries "[])"); open_answer = 0 } }
function several(name, type, items, count,   i) {
    printf "\nabbrev pub %s_%d : List %s\n%s_%d =", name, run, type, name, run
    for (i = 1; i <= count; i++) printf "\n    %s ∷", items[i]
    printf count ? " []\n" : " []\n"
}
BEGIN {
    EVERY = "opening by 1, opening by 2, opening by 3, load by 16, load by 14, load by 6, load by 7, access by 16, access by 14, access by 4, access by 5, access by 6, access by 15, access by 7, rebuild by 16, rebuild by 14, rebuild by 7"
    split("OutOfRange StoreUnfit IndexOrSupplyUnfit UnknownOperation UnknownAddress WrongByteLength TraceTooShort WrongTable WrongRound PlaceBeyondStore WrongListChange BeyondSupply UnreadableLine WrongTurn BuildsUsedUp NotOpened UnfitLetter", NAMES, " ")
    for (i = split(chosen, list, " "); i > 0; i--) is_chosen[list[i]] = 1
    while ((getline line < header) > 0) print line
}
$1 == "run" { taken = $2 in is_chosen }
!taken { next }
$1 == "run" { run = runs++; drawn = $2; refusals = ""; split("", noted); table_count = call_count = answer_count = slot_count = level_count = open_answer = 0; split("", members) }
$1 == "open" { L = $2; W = $3; width = $4; places = $5; index_levels = $6; empty = $7; top = $8 }
$1 == "table" { tables[++table_count] = numbers(3) }
$1 == "opened" { opened = $2 == 0 ? "None" : "Some " refusal($2); if ($2 != 0) refused("opening by " $2) }
$1 == "load" { close_answer(); calls[++call_count] = "load " numbers(4) " " $3 }
$1 == "access" { close_answer(); calls[++call_count] = "access " ($2 - 1) / 2 " " $4 " " $5 " " numbers(6) " " $3 }
$1 == "rebuild" { close_answer(); calls[++call_count] = "rebuild " ($2 - 2) / 2 " " $3 }
$1 == "load" || $1 == "access" || $1 == "rebuild" { kind = $1 }
$1 == "accepted" { open_answer = 1; bytes = "[]"; entries = "" }
$1 == "bytes" { bytes = numbers(2) }
$1 == "entry" { entries = entries "entry_of " bool($2) " " bool($3) " " $4 " ∷ " }
$1 == "declined" { answers[++answer_count] = "declined " refusal($2); refused(kind " by " $2) }
$1 == "slot" { close_answer(); slots[++slot_count] = "block_slot " $3 " " numbers(4) }
$1 == "record" { level = $2; occupied[level] = $3; counter[level] = $5; build[level] = $6; level_count = level + 1 }
$1 == "list" { members[$2] = numbers(3) }
$1 == "number" { number = $2 }
$1 == "end" {
    close_answer()
    printf "\n-- run %d, number %d of seed %d: L = %d, W = %d%s\n", run, drawn, seed, L, W, refusals
    printf "abbrev pub parts_%d : Parts\n", run
    printf "parts_%d = record {\n  store_width = %d;\n  store_slots = replicate %d (block_slot 0 (replicate %d 0));\n  index_lists = %s;\n  supply_top = %d;\n}\n",
        run, width, places, width, empty == 1 ? "replicate " index_levels " []" : "(0 ∷ []) ∷ replicate " index_levels - 1 " []", top
    several("tables", "(List ℕ)", tables, table_count)
    several("calls", "Call", calls, call_count)
    several("answers", "Answer", answers, answer_count)
    several("slots", "Slot", slots, slot_count)
    printf "\nabbrev pub levels_%d : List Level\nlevels_%d =", run, run
    if (level_count == 0) printf " replicate %d vacant\n", L + 1
    else {
        for (i = 0; i < level_count; i++)
            printf "\n    record { occupied = %s; members = %s; counter = %d; build = %d } ∷", bool(occupied[i]),
                i < L ? members[i] : (occupied[i] == 1 ? "range_with_len 0 " 2 ^ L : "[]"), counter[i], build[i]
        printf " []\n"
    }
    printf "\nabbrev pub Run%d : Type 0\nRun%d = Agrees %d %d parts_%d tables_%d calls_%d (%s) answers_%d slots_%d levels_%d %d\n",
        run, run, L, W, run, run, run, opened, run, run, run, number
}
END {
    printf "\n-- all of them\npub record AllAgree : Type 0 where\n"
    for (i = 0; i < runs; i++) printf "  pub run_%d : Run%d\n", i, i
    for (i = split(EVERY, wanted, ", "); i > 0; i--) if (!(wanted[i] in seen)) { print "none of the runs has a refused " wanted[i] > "/dev/stderr"; missing = 1 }
    exit missing
}
