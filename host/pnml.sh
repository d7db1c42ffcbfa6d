#!/bin/bash
# Tests the program `pnml`: pnml.sh PATH-OF-THE-EXECUTABLE
# Written texts are parsed by an XML parser that is not ours, and the net is rebuilt from what it finds. That is Python's xml.etree, or
# xmllint where there is no python3; PNML_PARSER (python3 or xmllint) chooses.
set -u
. "$(dirname "$0")/common.sh"
begin "pnml.sh PATH-OF-THE-EXECUTABLE" "$@"
root=$(cd "$(dirname "$0")/.." && pwd)
r=$root/examples/r
sample=$root/docs/R.pnml
case=$work/case
mkdir "$case"

parser=${PNML_PARSER:-}
for found in python3 xmllint; do
    [ -n "$parser" ] || ! command -v "$found" >/dev/null || parser=$found
done
if [ "$parser" != python3 ] && [ "$parser" != xmllint ]; then
    echo "pnml.sh needs python3 or xmllint" >&2
    exit 2
fi

# run ARGUMENT..: the program in the case's folder.
run() {
    (cd "$case" && "$program" "$@") >"$work/out" 2>"$work/err" </dev/null
}

# same NAME WHAT FILE FILE: the two files are equal.
same() {
    if cmp -s "$3" "$4"; then pass; else fail "$1" "$2"; fi
}

# Records. A net is in the arrays pre, post, action and optional (0 or 1), in places and in marking; sets are numbers of 64 bits.

# put SIZE NUMBER: adds a little-endian number to `bytes`.
put() {
    local i value=$2 byte
    for ((i = 0; i < $1; i++)); do
        printf -v byte '\\x%02x' $((value & 255))
        bytes+=$byte
        value=$((value >> 8))
    done
}

# records: the transition records of the net, to standard output.
records() {
    local t bytes=
    for ((t = 0; t < ${#pre[@]}; t++)); do
        put 8 "${pre[t]}"
        put 8 "${post[t]}"
        put 2 "${action[t]}"
        put 1 "${optional[t]}"
        put 5 0
    done
    printf "$bytes"
}

# ask MARKING FORMULA PLACES SIDE
ask() {
    local bytes=
    put 8 "$1"
    put 2 "$2"
    put 1 "$3"
    put 1 "$4"
    printf "$bytes"
}

# random: a number of 64 bits in `value`.
random() {
    value=$((RANDOM << 60 ^ RANDOM << 45 ^ RANDOM << 30 ^ RANDOM << 15 ^ RANDOM))
}

# some HOW-MANY: no, few, many or all numbers of 64, as a set in `value`.
some() {
    local first
    random
    case $1 in
    no) value=0 ;;
    few)
        first=$value
        random
        value=$((first & value))
        ;;
    all) value=-1 ;;
    esac
}

# net SEED PLACES TRANSITIONS HOW-MANY-ARCS: a net, the same for the same arguments.
net() {
    local t all=-1 value
    RANDOM=$1
    places=$2
    [ "$places" -eq 64 ] || all=$(((1 << places) - 1))
    pre=() post=() action=() optional=()
    for ((t = 0; t < $3; t++)); do
        some "$4"
        pre[t]=$((value & all))
        some "$4"
        post[t]=$((value & all))
        case $((RANDOM % 4)),$4 in
        0,* | *,all) action[t]=65535 ;;
        1,*) action[t]=$((RANDOM % 11)) ;;
        2,*) action[t]=$((RANDOM % 1000)) ;;
        3,*) action[t]=$((2 * RANDOM)) ;;
        esac
        case $4 in
        no) optional[t]=0 ;;
        all) optional[t]=1 ;;
        *) optional[t]=$((RANDOM % 2)) ;;
        esac
    done
    random
    [ "$4" != all ] || value=-1
    marking=$((value & all))
}

# What the parser finds: a line for each place (id, marking), transition (id, name), optional transition (id) and arc (id, source, target), by
# attributes and text alone. It also writes the text anew, in two ways, with white space between the elements.

# python3_parse TEXT LINES SPACES TABS
# The writer of xml.etree puts a space before "/>", which has to go.
python3_parse() {
    python3 - "$@" <<'PYTHON'
import sys
import xml.etree.ElementTree as tree

grammar = "http://www.pnml.org/version-2009/grammar/"
text, lines, spaces, tabs = sys.argv[1:]
root = tree.parse(text).getroot()


def named(element, name, attributes):
    assert element.tag == "{" + grammar + "pnml}" + name, element.tag
    assert sorted(element.keys()) == sorted(attributes.split()), element.attrib
    return element


def only(element, name, attributes=""):
    (child,) = element
    return named(child, name, attributes)


net = only(named(root, "pnml", ""), "net", "id type")
assert net.get("type") == grammar + "ptnet"
with open(lines, "w") as out:
    for part in only(net, "page", "id"):
        kind = part.tag.rpartition("}")[2]
        if kind == "arc":
            named(part, "arc", "id source target")
            print(kind, part.get("id"), part.get("source"), part.get("target"), file=out)
        else:
            inner = {"place": "initialMarking", "transition": "name"}[kind]
            label, *marks = named(part, kind, "id")
            print(kind, part.get("id"), only(named(label, inner, ""), "text").text, file=out)
            for mark in marks:
                named(mark, "toolspecific", "tool version")
                assert kind == "transition" and (mark.get("tool"), mark.get("version")) == ("desk", "1")
                print("optional", part.get("id"), file=out)

tree.register_namespace("", grammar + "pnml")
for path, space, end in ((spaces, "  ", b"\n"), (tabs, "\t", b"\r\n")):
    tree.indent(root, space)
    with open(path, "wb") as out:
        out.write(tree.tostring(root).replace(b" />", b"/>").replace(b"\n", end) + end)
PYTHON
}

# values TEXT PATH: the values of the attributes, or the texts, at a path below the page, a line each.
values() {
    local name path=
    for name in pnml net page ${2//\// }; do
        case $name in
        @* | .. | text\(\)) path+=/$name ;;
        *) path+="/*[local-name()='$name' and namespace-uri()='http://www.pnml.org/version-2009/grammar/pnml']" ;;
        esac
    done
    xmllint --xpath "$path" "$1" 2>/dev/null | sed 's/^ *[a-z]*="\(.*\)"$/\1/'
}

# xmllint_parse TEXT LINES SPACES TABS
# xmllint writes a declaration as the first line, which has to go.
xmllint_parse() {
    xmllint --noout "$1" || return 1
    {
        paste -d ' ' <(values "$1" place/@id) <(values "$1" "place/initialMarking/text/text()") | sed 's/^/place /'
        paste -d ' ' <(values "$1" transition/@id) <(values "$1" "transition/name/text/text()") | sed 's/^/transition /'
        values "$1" transition/toolspecific/../@id | sed 's/^/optional /'
        paste -d ' ' <(values "$1" arc/@id) <(values "$1" arc/@source) <(values "$1" arc/@target) | sed 's/^/arc /'
    } >"$2"
    xmllint --format "$1" | sed 1d >"$3"
    XMLLINT_INDENT=$'\t' xmllint --format "$1" | sed '1d; s/$/\r/' >"$4"
}

# rebuild LINES: the net that the lines tell of. An arc that is told twice is none.
rebuild() {
    local kind id first second
    pre=() post=() action=() optional=() places=0 marking=0
    while read -r kind id first second; do
        case $kind,$first in
        place,*)
            places=$((places + 1))
            marking=$((marking | first << ${id#p}))
            ;;
        transition,*) pre[${id#t}]=0 post[${id#t}]=0 action[${id#t}]=$first optional[${id#t}]=0 ;;
        optional,*) optional[${id#t}]=$((optional[${id#t}] + 1)) ;;
        arc,p*) pre[${second#t}]=$((pre[${second#t}] ^ 1 << ${first#p})) ;;
        arc,t*) post[${first#t}]=$((post[${first#t}] ^ 1 << ${second#p})) ;;
        esac
    done <"$1"
}

# there_and_back NAME: writes the net, has the text parsed, rebuilds the net from that, and reads the text and the two that the parser wrote.
there_and_back() {
    local text expected
    expected=$(printf 'places %u marking %u' "$places" "$marking")
    records >"$case/NET"
    ask "$marking" 0 "$places" 0 >"$case/ASK"
    run write ASK NET
    cp "$work/out" "$case/text"
    rm -f "$case/lines" "$case/spaces" "$case/tabs"
    if "${parser}_parse" "$case/text" "$case/lines" "$case/spaces" "$case/tabs"; then
        pass
    else
        fail "$1" "the parser refuses the text"
        return
    fi
    rebuild "$case/lines"
    printf 'places %u marking %u\n' "$places" "$marking" >"$work/out"
    line "$1, rebuilt" "$expected"
    records >"$work/rebuilt"
    same "$1" "another net is rebuilt" "$case/NET" "$work/rebuilt"
    if [ "$(wc -l <"$case/spaces")" -le "${#pre[@]}" ] || cmp -s "$case/spaces" "$case/tabs"; then
        fail "$1" "no white space in the new texts"
    fi
    for text in text spaces tabs; do
        rm -f "$case/BACK"
        run read "$text" BACK
        line "$1, $text" "$expected"
        same "$1, $text" "another net is read" "$case/NET" "$case/BACK"
    done
}

# The sample: R written, read, parsed.
run write "$r/ASK" "$r/NET"
same "R" "the text is not docs/R.pnml" "$work/out" "$sample"
run read "$sample" BACK
line "R" "places 3 marking 3"
same "R" "the records are not those of examples/r" "$case/BACK" "$r/NET"
places=3 marking=3 pre=(1 2 4) post=(1 4 0) action=(1 2 3) optional=(0 0 0)
there_and_back "R"
same "R" "the parsed text is not docs/R.pnml" "$case/text" "$sample"

# R where t1 is optional, as its text must be.
mark='<toolspecific tool="desk" version="1"/>'
sed "s|2</text></name>|&$mark|" "$sample" >"$work/optional"
places=3 marking=3 pre=(1 2 4) post=(1 4 0) action=(1 2 3) optional=(0 1 0)
there_and_back "R, t1 optional"
same "R, t1 optional" "the text is another" "$case/text" "$work/optional"
if [ "$(wc -c <"$case/text")" -eq 778 ]; then pass; else fail "R, t1 optional" "its text has another length"; fi

# Other nets, the largest last.
seed=0
for sizes in "1 1 no" "1 1 all" "1 64 many" "64 1 many" "2 3 few" "9 10 many" "10 11 few" "11 9 many" "12 12 few" "63 5 few" "64 64 no" \
    "64 64 few" "37 41 many" "64 64 all"; do
    seed=$((seed + 1))
    net "$seed" $sizes
    there_and_back "net $seed of $sizes"
done
if [ "$(wc -c <"$case/text")" -eq 359925 ]; then pass; else fail "the largest net" "its text has another length"; fi

# start: R's files in a fresh folder, and none that a reading makes.
start() {
    rm -rf "$case"
    mkdir "$case"
    cp "$r/ASK" "$r/NET" "$case"
    cp "$sample" "$case/FILE"
}

# fill FILE SIZE: cuts a file or extends it with zero bytes.
fill() {
    truncate -s "$2" "$case/$1"
}

# poke FILE OFFSET OCTAL: changes one byte.
poke() {
    printf "\\$3" | dd of="$case/$1" bs=1 seek="$2" conv=notrunc 2>/dev/null
}

# written NAME LINE: `pnml write` on the case's files.
written() {
    run write ASK NET
    line "write: $1" "$2"
}

# refused NAME LINE: `pnml read` of the case's FILE, which makes no file and leaves one that is there.
refused() {
    rm -rf "$case/BACK"
    run read FILE BACK
    line "read: $1" "$2"
    if [ -e "$case/BACK" ]; then fail "read: $1" "a file is made"; else pass; fi
    cp "$r/TREE" "$case/BACK"
    run read FILE BACK
    line "read: $1, a file there" "$2"
    same "read: $1" "the file there is changed" "$r/TREE" "$case/BACK"
}

# What the ask says beside places and marking is no matter, but for its side above 1.
start
ask 3 65535 3 1 >"$case/ASK"
run write ASK NET
same "write: another formula and side" "another text" "$work/out" "$sample"

# The refusals of writing.
for size in 0 1 11 13 24 64000; do
    start
    fill ASK "$size"
    written "an ask of $size bytes" "refused 1 at 0"
done
for fields in "3 2 0 0" "3 2 65 0" "3 2 255 0" "3 2 3 2" "3 2 3 255"; do
    start
    ask $fields >"$case/ASK"
    written "an ask of $fields" "refused 1 at 0"
done
for size in 0 1 23 71 73 1560 64000; do
    start
    fill NET "$size"
    written "a net of $size bytes" "refused 2 at 0"
done
start
ask 3 2 2 0 >"$case/ASK"
written "two places" "refused 3 at 1"
for spare in 19 20 21 22 23; do
    start
    poke NET $((48 + spare)) 001
    written "byte $spare of transition 2" "refused 3 at 2"
    poke NET 66 001
    written "byte $spare of transition 2, optional" "refused 3 at 2"
done
for mark_byte in 002 003 200 377; do
    start
    poke NET 42 "$mark_byte"
    written "a mark of $mark_byte (octal) in transition 1" "refused 3 at 1"
done
start
ask 8 2 3 0 >"$case/ASK"
written "marking 8" "refused 7 at 0"
ask $((1 << 63)) 2 63 0 >"$case/ASK"
written "bit 63 of 63" "refused 7 at 0"
poke NET 23 001
written "3 before 7" "refused 3 at 0"
fill NET 71
written "2 before 7" "refused 2 at 0"
ask 8 2 3 2 >"$case/ASK"
written "1 before 2" "refused 1 at 0"

# Files that cannot be read: missing, a folder, a link to nothing, too long, no name.
for name in ASK NET; do
    start
    fill "$name" 64001
    written "$name of 64,001 bytes" "unread $name"
    rm "$case/$name"
    written "no $name" "unread $name"
    mkdir "$case/$name"
    written "a folder in place of $name" "unread $name"
    rmdir "$case/$name"
    ln -s nowhere "$case/$name"
    written "a link to nothing in place of $name" "unread $name"
done
start
run write "" NET
line "write: an empty path of ASK" "unread ASK"
run write ASK ""
line "write: an empty path of NET" "unread NET"
rm "$case/NET"
fill ASK 5
written "reads both before it checks" "unread NET"
rm "$case/ASK"
written "ASK and NET missing" "unread ASK"
start
fill FILE 1000001
refused "a text of 1,000,001 bytes" "unread FILE"
rm "$case/FILE"
refused "no text" "unread FILE"
mkdir "$case/FILE"
refused "a folder in place of the text" "unread FILE"
rmdir "$case/FILE"
ln -s nowhere "$case/FILE"
refused "a link to nothing in place of the text" "unread FILE"
run read "" BACK
line "read: an empty path" "unread FILE"

# The refusals of reading.
for size in 0 1 138 139 140 300 738; do
    start
    fill FILE "$size"
    refused "cut to $size bytes" "refused 13 at $size"
done
for byte in 0 1 59 138 139 200 500 738; do
    start
    poke FILE "$byte" 001
    refused "byte $byte changed" "refused 13 at $byte"
done
start
fill FILE 740
refused "a zero after the text" "refused 13 at 739"
start
printf ' \n' | cat - "$sample" >"$case/FILE"
refused "white space before the text" "refused 13 at 0"
printf '<?xml version="1.0"?>' | cat - "$sample" >"$case/FILE"
refused "a declaration" "refused 13 at 1"
sed 's/<text>1/<text> 1/' "$sample" >"$case/FILE"
refused "white space after <text>" "refused 13 at 176"
sed 's/<text>3</<text>03</' "$sample" >"$case/FILE"
refused "a leading zero" "refused 13 at 502"
sed 's/source="p2"/source="p3"/' "$sample" >"$case/FILE"
refused "a place that is not there" "refused 13 at 703"

# The mark of an optional transition where it may not stand, and what is nearly that mark. In R's text t1 begins at byte 409, its name element
# at 429 and ends before 456.
# unmarked NAME OLD NEW OFFSET: R's text with t1's OLD, a part of what stands from its id to the end of the transition, replaced.
unmarked() {
    sed "s|\(id=\"t1\".*\)$2\(.*<transition id=\"t2\"\)|\1$3\2|" "$sample" >"$case/FILE"
    if cmp -s "$case/FILE" "$sample"; then fail "read: $1" "the text is not changed"; fi
    refused "$1" "refused 13 at $4"
}
start
unmarked "the mark before the name" "<name>" "$mark<name>" 430
unmarked "the mark in the name" "</name>" "$mark</name>" 450
unmarked "the mark twice" "</name>" "</name>$mark$mark" 496
unmarked "the mark after the transition" "</transition>" "</transition>$mark" 471
unmarked "version 2" "</name>" "</name>${mark/1/2}" 491
unmarked "version 10" "</name>" "</name>${mark/1/10}" 492
unmarked "two spaces in the mark" "</name>" "</name>${mark/ tool/  tool}" 470
unmarked "a space before the mark's end" "</name>" "</name>${mark/\/>/ />}" 493
unmarked "a mark with an end tag" "</name>" "</name>${mark/\/>/></toolspecific>}" 493
unmarked "the mark's attributes exchanged" "</name>" "</name><toolspecific version=\"1\" tool=\"desk\"/>" 470
unmarked "another tool" "</name>" "</name>${mark/desk/disk}" 477

# text PLACES TRANSITIONS: a text without arcs.
text() {
    local k
    head -c 139 "$sample"
    for ((k = 0; k < $1; k++)); do printf '<place id="p%d"><initialMarking><text>0</text></initialMarking></place>' "$k"; done
    for ((k = 0; k < $2; k++)); do printf '<transition id="t%d"><name><text>0</text></name></transition>' "$k"; done
    tail -c 20 "$sample"
}
start
for sizes in "0 0 1" "0 1 1" "65 1 1" "65 65 1" "321 1 1" "1 0 2" "64 65 2" "1 320 2"; do
    set -- $sizes
    text "$1" "$2" >"$case/FILE"
    refused "$1 places and $2 transitions" "refused $3 at 0"
    printf '.' >>"$case/FILE"
    refused "$1 places and $2 transitions and a dot" "refused 13 at $(($(wc -c <"$case/FILE") - 1))"
done

# A granted reading: the longest file, and a file that is there already, longer or shorter than the records.
start
head -c $((1000000 - 739)) /dev/zero | tr '\0' ' ' >>"$case/FILE"
run read FILE BACK
line "read: a text of 1,000,000 bytes" "places 3 marking 3"
same "read: a text of 1,000,000 bytes" "other records" "$case/BACK" "$r/NET"
for size in 0 10 72 920 100000; do
    start
    head -c "$size" /dev/zero | tr '\0' x >"$case/BACK"
    run read FILE BACK
    line "read: over $size bytes" "places 3 marking 3"
    same "read: over $size bytes" "other records" "$case/BACK" "$r/NET"
done

# usage ARGUMENT..: something on standard error, nothing on standard output, and no file is made.
usage() {
    start
    run "$@"
    if [ -s "$work/out" ]; then fail "usage: $*" "something on standard output"; else pass; fi
    if [ -s "$work/err" ]; then pass; else fail "usage: $*" "nothing on standard error"; fi
    if [ -e "$case/BACK" ]; then fail "usage: $*" "a file is made"; else pass; fi
}
usage
usage ""
usage write
usage read
usage ASK NET
usage write ASK
usage read FILE
usage write ASK NET BACK
usage read FILE BACK BACK
usage other ASK NET
usage Read FILE BACK
usage "" FILE BACK
usage readall FILE BACK
usage rea FILE BACK

finish
