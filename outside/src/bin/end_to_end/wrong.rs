//! Programs that are wrong in one way each: a shell's text around the real one, whose path is `$0`. It spoils what the
//! real one is given or what it leaves.

use super::run::{DESK, HOUSE, PLAY};

/// A wrong program: its name, what is wrong, which programs are so, the groups that must find it, and the text.
pub type Wrong = (&'static str, &'static str, &'static [&'static str], &'static str, &'static str);

/// What the texts use: `run` runs the real program and keeps its standard error, `tell` tells that; `raw` runs the real
/// program where the input is no wave file, and that is all. `kept` is a file; `number` gives the number of four of its
/// bytes, and `data` the file and so many bytes of the input. `bytes` gives the four bytes of a number.
pub const PRELUDE: &str = r#"
run() { exec 3>&1; said=$("$0" "$@" 2>&1 >&3 3>&-); }
tell() { [ -z "$said" ] || printf '%s\n' "$said" >&2; }
raw() { [ "$1" = --wave ] || exec "$0" "$@"; }
kept=../output
number() { od -A n -t u4 -j "$1" -N 4 "$kept" | tr -d ' '; }
data() { cat "$kept"; dd bs=4 count=$(($1 / 4)) status=none; }
bytes() { printf "$(printf '\\%03o' $(($1 & 255)) $(($1 >> 8 & 255)) $(($1 >> 16 & 255)) $(($1 >> 24 & 255)))"; }
"#;

const ALL: &[&str] = &[PLAY, HOUSE, DESK];

#[rustfmt::skip]
pub const WRONG: [Wrong; 56] = [
    ("filled-tail", "three zero bytes stand behind the input", &[PLAY], "tails, chunks",
        r#"{ cat; head -c 3 /dev/zero; } | "$0" "$@""#),
    ("silent-tail", "a tail is not told", &[PLAY], "tails, chunks, live",
        r#"run "$@"; [ "$said" = 5 ] || tell"#),
    ("unsaved-tail", "a tail leaves no sheet", &[PLAY], "tails",
        r#"run "$@"; tell; [ "$said" != 5 ] || rm strip.new"#),
    ("copied-sheet", "strip.new is strip.sht again", &[PLAY], "figures, sounds, continued",
        r#""$0" "$@"; [ ! -f strip.new ] || cp strip.sht strip.new"#),
    ("sheet-after-refusal", "strip.new is there after every run", &[PLAY], "refused sheets",
        r#""$0" "$@"; [ -e strip.new ] || : >strip.new"#),
    ("sheet-begun-first", "strip.new is made empty at the start", &[PLAY], "refused sheets, live, streams",
        r#"[ -d strip.new ] || : >strip.new; exec "$0" "$@""#),
    ("number-alone", "a number has no line feed", ALL, "refused sheets, tails, desk refusals",
        r#"run "$@"; printf %s "$said" >&2"#),
    ("always-12", "every refusal is 12", ALL, "refused sheets, tails, desk refusals, chains, refused waves",
        r#"run "$@"; case $said in [0-9]|1[0-9]) said=12 ;; esac; tell"#),
    ("number-as-status", "a refusal is the exit status too", ALL, "refused sheets, desk refusals, refused waves",
        r#"run "$@"; tell; case $said in 5) ;; [0-9]*) exit "$said" ;; esac"#),
    ("one-read", "what one read gives is all of the input", &[PLAY], "chunks, live, wave chunks, live waves",
        r#"dd bs=1M count=1 status=none | "$0" "$@""#),
    ("begun-anew", "the sheet is read anew after a thousand frames", &[PLAY], "chunks, sounds, live",
        r#"head -c 4000 | "$0" "$@"; exec "$0" "$@""#),
    ("lost-frame", "a frame of the sound is lost after a thousand", &[PLAY], "sounds, chunks",
        r#""$0" "$@" | { head -c 4000; head -c 4 >/dev/null; cat; }"#),
    ("lost-flag", "the flags are not written", &[PLAY], "sounds",
        r#""$0" "$@"; [ ! -f strip.new ] || sed -i 's/^\([LR].*\)1$/\10/' strip.new"#),
    ("gain-at-target", "every gain is written as its target", &[PLAY], "figures, continued",
        r#""$0" "$@"; [ ! -f strip.new ] || sed -i 's/^\(S.\{18\}\).\{9\}\(.\{9\}\)/\1\2\2/' strip.new"#),
    ("lost-remainder", "every remainder is written as 0", &[PLAY], "figures, sounds, continued, wave continued",
        r#""$0" "$@"; [ ! -f strip.new ] || sed -i 's/^\(S.\{36\}\).\{9\}$/\1        0/' strip.new"#),
    ("short-new", "strip.new has no fifth fields", &[PLAY], "figures, tails, sounds",
        r#""$0" "$@"; [ ! -f strip.new ] || sed -i 's/^\(S.\{36\}\).\{9\}$/\1/' strip.new"#),
    ("short-refused", "a strip.sht of 1,128 bytes is refused", &[PLAY], "figures, tails",
        r#"[ ! -f strip.sht ] || [ "$(wc -c <strip.sht)" != 1128 ] || { echo 11 >&2; exit; }; exec "$0" "$@""#),
    ("high-byte-first", "the sound's samples have their high byte first", &[PLAY], "figures, sounds",
        r#""$0" "$@" | dd conv=swab status=none"#),
    ("waits-for-more", "64 KiB are waited for before they are played", &[PLAY], "live, live waves",
        r#"dd bs=64K iflag=fullblock status=none | "$0" "$@""#),
    ("in-place", "strip.new is written over the old one", &[PLAY], "files, wave faults",
        r#"[ ! -f strip.new ] || ln -f strip.new kept; "$0" "$@"
        [ ! -f kept ] || { cat strip.new >kept; mv kept strip.new; }"#),
    ("followed-link", "a link strip.new.part is followed", &[PLAY], "files",
        r#"[ ! -L strip.new.part ] || : >strip.new.part; exec "$0" "$@""#),
    ("lost-sheet", "the sheet is not told where it can't be written", &[PLAY], "files, wave faults",
        r#"run "$@"; said=$(printf %s "$said" | grep -v '^[VCLRS]'); tell"#),
    ("late-folder", "a folder in the place of strip.new is found after the sound", &[PLAY], "files",
        r#"[ ! -d strip.new ] || { cat; exec </dev/null; }; exec "$0" "$@""#),
    ("left-trial", "a trial is left where a fault is told", &[PLAY], "live, streams",
        r#": >trial; run "$@"; tell; case $said in ?*[a-z]*) ;; *) rm trial ;; esac"#),
    ("fault-as-end", "a read fault is taken as the end", &[PLAY], "streams, wave faults",
        r#"cat 2>/dev/null | "$0" "$@""#),
    ("tail-first", "a tail is told ahead of the faults", &[PLAY], "files, streams",
        "run \"$@\"; case $said in *?'\n5') said=$(printf '5\\n%s' \"${said%?5}\") ;; esac; tell"),
    ("play-takes-all", "play looks at no arguments", &[PLAY], "play arguments, wave files, refused waves, wave continued",
        r#"exec "$0""#),
    ("help-as-error", "help and version go to standard error", ALL, "play arguments, house, desk arguments",
        r#"case $1 in --*) exec "$0" "$@" >&2 ;; *) exec "$0" "$@" ;; esac"#),
    ("house-writes-nothing", "house writes nothing", &[HOUSE], "house, chains",
        r#"exec "$0" "$@" >/dev/null"#),
    ("house-waits", "house waits for the end of its input", &[HOUSE], "house",
        r#"cat >/dev/null 2>&1; exec "$0" "$@""#),
    ("flat-mute", "a muted band is at position 16", &[DESK], "desk orders, chains",
        r#"list=; while [ $# -gt 2 ]; do at=$3; case $2-$3 in 10-mute) ;; *-mute) at=16 ;; esac; list="$list $1 $2 $at"; shift 3; done
        exec "$0" $list "$@""#),
    ("desk-one-read", "desk takes what one read gives as the sheet", &[DESK], "desk orders",
        r#"dd bs=4K count=1 status=none 2>/dev/null | "$0" "$@""#),
    ("desk-waits", "desk waits for the end of its input", &[DESK], "desk refusals",
        r#"cat 2>/dev/null | "$0" "$@""#),
    ("desk-cut", "bytes behind 1,200 are not looked at", &[DESK], "desk orders",
        r#"head -c 1200 2>/dev/null | "$0" "$@""#),
    ("desk-short-refused", "desk refuses a sheet of 1,128 bytes", &[DESK], "desk orders",
        r#"cat >"$kept"; [ "$(wc -c <"$kept")" != 1128 ] || { echo 11 >&2; exit; }; exec "$0" "$@" <"$kept""#),
    ("short-written", "the sheet that is written has no fifth fields", &[HOUSE, DESK], "house, desk orders, chains",
        r#""$0" "$@" | sed 's/^\(S.\{36\}\).\{9\}$/\1/'"#),
    ("desk-reversed", "the last of several orders comes first", &[DESK], "desk orders, desk refusals",
        r#"list=; while [ $# -gt 2 ]; do list="$1 $2 $3 $list"; shift 3; done; exec "$0" $list "$@""#),
    ("written-refusal", "a sheet is written after a refused order", &[DESK], "desk refusals",
        r#"run "$@"; tell; case $said in 1 | 2) "${0%desk}house" ;; esac"#),
    ("plus-sign", "a plus ahead of a number is accepted", &[DESK], "desk arguments",
        r#"for word; do shift; set -- "$@" "${word#+}"; done; exec "$0" "$@""#),
    ("first-three", "arguments behind the third are not looked at", &[DESK], "desk orders, desk arguments",
        r#"[ $# -lt 3 ] || set -- "$1" "$2" "$3"; exec "$0" "$@""#),
    ("wave-unasked", "a wave file is played as one without being asked", &[PLAY], "wave files",
        r#"cat >"$kept"; [ $# != 0 ] || [ "$(head -c 4 "$kept")" != RIFF ] || set -- --wave; exec "$0" "$@" <"$kept""#),
    ("wave-ahead", "16 is told ahead of the sheet's number and the faults", &[PLAY], "refused sheets, files",
        r#"raw "$@"; cat 2>/dev/null >"$kept"; [ "$(head -c 4 "$kept")" = RIFF ] || { echo 16 >&2; exit; }; exec "$0" "$@" <"$kept""#),
    ("every-riff", "RIFX, RF64 and small letters are taken as RIFF", &[PLAY], "refused waves",
        r#"raw "$@"; LC_ALL=C sed '1s/^\(RIFX\|RF64\|riff\)/RIFF/' | "$0" "$@""#),
    ("always-44", "all behind the first 44 bytes is played", &[PLAY], "wave files, refused waves, unfinished waves, live waves",
        r#"raw "$@"; head -c 44; "$0""#),
    ("any-front", "headings of any length are taken", &[PLAY], "refused waves",
        r#"raw "$@"; cat >"$kept"; case $(head -c 16 "$kept") in *LIST) set -- "$@" "$(number 16)" ;; *) exec "$0" "$@" <"$kept" ;; esac
        { head -c 12 "$kept"; tail -c +$((21 + $2 + $2 % 2)) "$kept"; } | "$0" "$1""#),
    ("bare-sound", "the sound has no heading", &[PLAY], "wave files, unfinished waves, wave chunks, wave continued",
        r#"raw "$@"; "$0" "$@" | tail -c +45"#),
    ("heading-after-refusal", "a heading is written for a refused file", &[PLAY], "refused waves",
        r#"raw "$@"; "$0" "$@" >"$kept"; [ -s "$kept" ] || head -c 44 /dev/zero; cat "$kept""#),
    ("size-of-the-data", "the file's own size is that of the data", &[PLAY], "wave files, wave continued",
        r#"raw "$@"; "$0" "$@" >"$kept"; head -c 4 "$kept"; tail -c +41 "$kept" | head -c 4; tail -c +9 "$kept""#),
    ("size-of-the-file", "the file's own size counts its first eight bytes", &[PLAY], "wave files, wave continued",
        r#"raw "$@"; "$0" "$@" >"$kept"; [ -s "$kept" ] || exit
        head -c 4 "$kept"; bytes $(($(number 4) + 8)); tail -c +9 "$kept""#),
    ("size-that-came", "the size is that of the data that came", &[PLAY], "unfinished waves",
        r#"raw "$@"; "$0" "$@" >"$kept"; [ -s "$kept" ] || exit; came=$(($(wc -c <"$kept") - 44))
        head -c 4 "$kept"; bytes $((came + 36)); tail -c +9 "$kept" | head -c 32; bytes $came; tail -c +45 "$kept""#),
    ("filled-data", "zeros stand for data that did not come", &[PLAY], "refused waves, unfinished waves",
        r#"raw "$@"; { cat; head -c 200000 /dev/zero; } | "$0" "$@""#),
    ("five-for-18", "5 is told where data ends too soon", &[PLAY], "refused waves, unfinished waves, live waves",
        r#"raw "$@"; run "$@"; [ "$said" != 18 ] || said=5; tell"#),
    ("unfinished-sheet", "data that ends too soon leaves the sheet after it", &[PLAY], "unfinished waves",
        r#"raw "$@"; cat >"$kept"; run "$@" <"$kept"; tell; [ "$said" != 18 ] || tail -c +45 "$kept" | "$0" >/dev/null 2>&1"#),
    ("removed-sheet", "a refused wave file removes an old strip.new", &[PLAY], "refused waves, unfinished waves, wave faults",
        r#"raw "$@"; run "$@"; tell; case $said in *5 | *1[678]) rm -f strip.new ;; esac"#),
    ("cut-off", "what stands behind the data is not read", &[PLAY], "live waves",
        r#"raw "$@"; head -c 44 >"$kept"; data "$(number 40)" | "$0" "$@""#),
    ("early-sheet", "the sheet is there before the input has ended", &[PLAY], "live waves",
        r#"raw "$@"; head -c 44 >"$kept"; data "$(number 40)" | "$0" "$@"; cat >/dev/null"#),
];
