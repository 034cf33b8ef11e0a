#!/usr/bin/env bash
# Tests of what is taken from proved/, and of tools/records, which writes and checks it. Nothing is proved here
# (common/launching.sh).
NAME=proved
. "$(dirname "${BASH_SOURCE[0]}")/../common/launching.sh"
cd "$room/elsewhere" || exit 1
ln -s "$room/top/relayplum" link
printf 'low:\nhigh: low\ncdc_app: low high clap index\n' >"$room/top/crates.txt"

# Records and libraries: one is taken where it is of what stands here.
cat >"$room/proved.py" <<'PROVED'
"""Writes what proved/ has of a crate, as it stands: proved.py TOP KIT CRATE [library] [object] [open] [copy]. The record has a part of
its own, which is that of a crate below if there is one, and two of the toolchain's; `open` spoils its verdict, and `copy` puts one of
the toolchain's under a name of its own. NAME=TEXT in place of `object` is object code of another name or text."""
import hashlib, json, os, shutil, sys
top, kit = sys.argv[1:3]
sys.path.insert(0, f"{top}/tools")
from build import parts, proved
from build.crates import Sums, crates_of
from build.toolchain import Toolchain
name, arguments = sys.argv[3], sys.argv[4:]
crates = crates_of(top)
crate = next(it for it in crates if it.name == name)
toolchain, have = Toolchain(), proved.Proved(top)
key = Sums(crates).key(crate, toolchain.identity)
said = {"commit": "a1b2c3", "kit": toolchain.name, "identity": toolchain.identity}
record = f"{top}/../record"
shutil.rmtree(record, ignore_errors=True)
os.makedirs(record)
def put(file, text):
    os.makedirs(os.path.dirname(file), exist_ok=True)
    with open(file, "w") as out:
        out.write(text)
put(f"{record}/verdict", "logic=" + ("open" if "open" in arguments else "proved"))
put(f"{record}/inputs", "".join(f'file "{it}" {sum}\n' for it, sum in crate.sums().items()))
def keep():
    shutil.rmtree(f"{os.environ['DO']}/records/{name}", ignore_errors=True)
    shutil.copytree(record, f"{os.environ['DO']}/records/{name}")
keep()
if not crate.is_program:
    big = open(f"{kit}/rlibs/index.rlib/big").read() if "copy" in arguments else "own\n"
    texts = [("part/Rattle-cdc_own", big), ("part/Rattle-index", "one\ntwo\n"), ("part/Rattle-index-some", "line 1\nmine\nline 3\n")]
    at, rows = 0, []
    for part, text in texts:
        rows.append([part, at, len(text)])
        at += len(text)
    put(f"{record}/toolchain/checked.a", "".join(text for _, text in texts))
    put(f"{record}/toolchain/checked.json", "".join(json.dumps(it) + "\n" for it in rows))
    keep()
    library = f"{top}/../library.rlib"
    shutil.rmtree(library, ignore_errors=True)
    shutil.copytree(f"{record}/toolchain", f"{library}/toolchain")
    put(f"{library}/lib", open(f"{crate.folder}/src/lib.rt").read())
    put(f"{library}/below/index/big", open(f"{kit}/rlibs/index.rlib/big").read())
    shutil.rmtree(f"{top}/../{name}.made", ignore_errors=True)
    shutil.copytree(library, f"{top}/../{name}.made")
    all_parts = parts.Parts(toolchain, have.folder, ["index"])
    proved.cut_out(record, all_parts, [parts.Library(f"{top}/../{it.name}.made") for it in crate.below])
    os.makedirs(have.folder, exist_ok=True)
    all_parts.write(all_parts.load())
have.write(crate, "record", proved.packed(record, proved.files_in(record)), key, **said)
for name, text in [(f"{name}.o", name)] if "object" in arguments else [it.split("=") for it in arguments if "=" in it]:
    put(f"{top}/../object/{name}", f"{text}\n")
    have.write(crate, "object", proved.packed(f"{top}/../object", [name]), key, **said)
if "library" in arguments:
    files = proved.Files("toolchain", f"{kit}/rlibs", ["index.rlib"])
    have.write(crate, "library", proved.pack_library(library, files, proved.Files("crate", top, [])), key, **said)
PROVED
mkdir -p "$room/kit/rlibs/index.rlib/toolchain" "$DO/records"
checked() { (printf "$1" && seq 1000) >"$room/kit/rlibs/index.rlib/toolchain/checked.a"; }
checked 'one\ntwo\nline 1\nline 2\nline 3\n'
printf '%s\n' '["part/Rattle-index", 0, 8]' '["part/Rattle-index-some", 8, 21]' '["part/Rattle-index-big", 29, 3893]' >"$room/kit/rlibs/index.rlib/toolchain/checked.json"
seq 1000 >"$room/kit/rlibs/index.rlib/big"
write() { python3 "$room/proved.py" "$room/top" "$room/kit" "$@"; }
whole='has own one two line 1 mine line 3 '

write low
write high
own() { tar -xJOf "$room/top/proved/$1.record.tar.xz" toolchain/checked.own; }
check 'records: a part of its own is kept' own "$(own low)"
check 'records: a part of a crate below is not kept again' '' "$(own high)"
from_scratch
call ./link books x
check 'records: what has one is built from it, and the rest is proved' \
    "$(printf '%s\n' 'low: record' "low: $whole" 'high: record' "high: $whole" 'cdc_app: proved, jobs 1, by rattle')" "$calls"
has 'records: how many are to be proved' '^relayplum: building the program first: 1 of 3 crates have to be proved, which takes minutes to an hour$' "$err"
has 'records: it is said' '^relayplum: 2 of 3 crates taken from the proof records in proved/, of a1b2c3; ./relayplum --prove proves them here$' "$err"
has 'records: what was proved is said' '^relayplum: proved here: cdc_app$' "$err"
check 'records: nothing of the toolchain is kept in one' '' "$(tar -xOf "$room/top/proved/low.record.tar.xz" toolchain/checked.own | grep -v own)"
check 'records: of a part that is some lines of the toolchain'"'"'s, its own lines alone' '=mine' "$(xz -dc "$room/top/proved/derived.xz" | grep =)"
call ./link --prove books x
check '--prove takes no record' "$built" "$calls"
write cdc_app
from_scratch
call ./link books x
check 'records: the program is built from them' 'cdc_app: record, by rattle' "$(tail -n 1 <<<"$calls")"
has 'records: it is said before' '^relayplum: building the program first: its crates come from their proof records in proved/, which takes minutes$' "$err"
has 'records: that of all is said' '^relayplum: all crates taken from the proof records in proved/, of a1b2c3' "$err"
check 'records: the program runs' 'run with books x' "$out"
call ./link --version
check '--version: built from records' 'relayplum
built from the proof records in proved/ of a1b2c3, with kit-1, by Rattle'"'"'s own compiler' "$out"
write low library
write high library
from_scratch
call ./link books x
check 'libraries: they are unpacked, and the program alone is built' 'cdc_app: record, by rattle' "$calls"
has 'libraries: it is said before' '^relayplum: building the program first: its crates come from their libraries in proved/, which takes minutes$' "$err"
has 'libraries: it is said' '^relayplum: all crates taken from the libraries in proved/, of a1b2c3; ./relayplum --prove' "$err"
check 'libraries: one is put together' "$(printf 'own\none\ntwo\nline 1\nmine\nline 3')" \
    "$(cat "$room/top/crates/cdc_app/out/start/low.rlib/toolchain/checked.a")"
check 'libraries: with what the toolchain has' 1000 "$(tail -n 1 "$room/top/crates/cdc_app/out/start/low.rlib/below/index/big")"
check 'libraries: which is not kept' '' "$(tar -tf "$room/top/proved/low.library.tar.xz" | grep big)"
check 'libraries: the program runs' 'run with books x' "$out"
call ./link --version
has '--version: built from libraries' '^built from the libraries in proved/ of a1b2c3, with kit-1, by Rattle.s own compiler$' "$out"
call ./link books x
check 'libraries: nothing is built a second time' '' "$calls"
write cdc_app object
from_scratch
call ./link books x
check 'object code: the program is linked, and nothing is built' '' "$calls"
has 'object code: it is said before' '^relayplum: linking the program first from its object code in proved/, which takes seconds$' "$err"
has 'object code: it is said' '^relayplum: cdc_app linked, [0-9]* s$' "$err"
has 'object code: what was taken is said' '^relayplum: all crates taken from the object code in proved/, of a1b2c3; ./relayplum --prove' "$err"
lacks 'object code: nothing is proved, and so nothing is said of it' 'have to be proved' "$err"
check 'object code: the program runs' 'run with books x' "$out"
check 'object code: no library is unpacked' '' "$(find "$room/top/crates/cdc_app/out/start" -name '*.rlib')"
call ./link --version
has '--version: linked from object code' '^built from the object code in proved/ of a1b2c3, with kit-1, by Rattle.s own compiler$' "$out"
call ./link books x
check 'object code: nothing is built a second time' '' "$calls$err"
call ./link --optimised books x
check 'object code: LLVM makes its own' 'cdc_app: record, by llvm' "$calls"
from_scratch
echo 'rm "$DO/link"; echo "error: no link"; exit 1' >"$DO/link"
call ./link books x
has 'object code: what can'"'"'t be linked is not taken' \
    '^relayplum: the object code of cdc_app in proved/ was not taken: it can.t be linked: error: no link$' "$err"
check 'object code: then the program is built from its record' 'cdc_app: record, by rattle' "$calls"
check 'object code: and runs' 'run with books x' "$out"
write cdc_app other.o=cdc_app
from_scratch
call ./link books x
has 'object code: of another name it is not taken' 'the object code of cdc_app in proved/ was not taken: it isn.t laid out as an archive of object code$' "$err"
write cdc_app object
printf 'x' >>"$room/top/proved/cdc_app.object.tar.xz"
from_scratch
call ./link books x
has 'object code: what was changed is not taken' 'the object code of cdc_app in proved/ was not taken: it isn.t the file that proved/index.json names$' "$err"
check 'object code: the program is built from its record' 'cdc_app: record, by rattle' "$calls"
write cdc_app object
from_scratch
call ./link --from-records books x
check '--from-records builds each crate from its record' "$(printf '%s\n' low: high: cdc_app:)" "$(grep record <<<"$calls" | cut -d' ' -f1)"
call ./link --from-records books x
check '--from-records, once more: nothing is built' '' "$calls"
from_scratch
call ./link --from-records --optimised books x
check '--from-records --optimised' 'cdc_app: record, by llvm' "$(tail -n 1 <<<"$calls")"
echo '// other' >>"$room/top/crates/high/src/lib.rt"
call ./link books x
lacks 'object code: of other sources it is not taken' link "$err"
check 'records: a crate of other sources is proved, and what stands on it' "$upwards" "$calls"
has 'records: it names those that are not taken' '^relayplum: proved/ has the records of other sources, or of another toolchain, of: high cdc_app$' "$err"
write high library
from_scratch
printf 'x' >>"$room/top/proved/high.library.tar.xz"
call ./link books x
has 'libraries: one that was changed is not taken' '^relayplum: the library of high in proved/ was not taken: it isn.t the file that proved/index.json names$' "$err"
check 'libraries: its record is' 'high: record' "$(head -n 1 <<<"$calls")"
printf 'x' >>"$room/top/proved/high.record.tar.xz"
from_scratch
call ./link books x
has 'records: one that was changed is not taken' '^relayplum: the record of high in proved/ was not taken: it isn.t the file that' "$err"
check 'records: the crate is proved' "$upwards" "$calls"
write high open
from_scratch
call ./link books x
check 'records: one that the toolchain refuses is not taken' "$(printf '%s\n' 'high: record' "high: proved, jobs 1")" "$(grep -v has <<<"$calls" | head -n 2)"
has 'records: who refused it is said' 'of high in proved/ was not taken: the toolchain refuses it: error: a record is not' "$err"
write high
checked 'one\ntoo\nline 1\nline 2\nline 3\n'
from_scratch
call ./link books x
has 'records: one of which the toolchain lacks a part is not taken' 'of low in proved/ was not taken: neither the crates below nor the toolchain have a part part/Rattle-index of the sum' "$err"
checked 'one\ntwo\nline 1\nline 2\nline 3\n'
seq 1001 >"$room/kit/rlibs/index.rlib/big"
from_scratch
call ./link books x
has 'libraries: one of which the toolchain has another file is not taken' '^relayplum: the library of low in proved/ was not taken: it can.t be put\|index.rlib/big isn.t the one that it was built with' "$err"
seq 1000 >"$room/kit/rlibs/index.rlib/big"
echo 'kill -9 $$' >"$DO/high"
from_scratch
call ./link --from-records books x
has 'records: a check that is killed is no refusal' '^relayplum: the system ended the check of high' "$err"
rm "$DO/high"
# An interrupt while a crate is built from its record: what was started ends, nothing is refused, and the next call builds.
echo 'echo $$ >"$DO/high.id.new"; mv "$DO/high.id.new" "$DO/high.id"; exec sleep 100000' >"$DO/high"
rm -f "$DO/high.id"
from_scratch
python3 -c 'import os, signal, sys; signal.signal(signal.SIGINT, signal.default_int_handler); os.execv(sys.argv[1], sys.argv[1:])' \
    "$room/top/relayplum" --from-records books x 2>"$room/err" &
started=$!
until_there "$DO/high.id"
kill -INT "$started"
{ sleep 120 && kill -9 "$started"; } 2>/dev/null &
guard=$!
wait "$started"
check 'records: an interrupt: its status' 130 $?
kill "$guard"
lacks 'records: an interrupt is no refusal' 'the system ended\|refused\|not taken\|isn.t proved\|Traceback' "$(cat "$room/err")"
check 'records: an interrupt: what it started is ended' gone \
    "$({ ! kill -0 "$(cat "$DO/high.id")" 2>/dev/null || [ "$(cut -d' ' -f3 "/proc/$(cat "$DO/high.id")/stat")" = Z ]; } && echo gone)"
rm "$DO"/high "$DO/high.id"
call ./link --from-records books x
check 'records: after an interrupt the next call builds, from the record' 'high: record' "$(grep '^high: record' <<<"$calls")"
check 'records: after an interrupt the program runs' 'run with books x' "$out"
echo 'kit-3 logic l1' >"$room/kit/KIT-ID"
from_scratch
call ./link --from-records books x
check 'records: those of a kit of another name are taken' 'low: record' "$(head -n 1 <<<"$calls")"
echo 'kit-3 logic l3' >"$room/kit/KIT-ID"
from_scratch
call ./link books x
check 'records: those of another logic are not' 'low: proved, jobs 1' "$(head -n 1 <<<"$calls")"
echo '{' >"$room/top/proved/index.json"
from_scratch
call ./link books x
check 'a list that is no list is said' '1 relayplum: proved/index.json can'"'"'t be read' "$status $err"
rm -r "$room/top/proved"
echo 'kit-1 logic l1' >"$room/kit/KIT-ID"

# What `rt ci` has built stands in each crate's folder; the gate compares what proved/ has with it.
as_ci() { # builds all from the records, and puts it where `rt ci` does
    from_scratch
    ./link --from-records books x >/dev/null 2>&1
    for crate in low high; do
        mkdir -p "$room/top/crates/$crate/out/rlib"
        rm -rf "$room/top/crates/$crate/out/rlib/$crate.rlib"
        cp -r "$room/top/crates/cdc_app/out/start/$crate.rlib" "$room/top/crates/$crate/out/rlib/"
    done
    cp "$room/top/crates/cdc_app/out/start/cdc_app" "$program.by-rattle"
    cp "$room/top/crates/cdc_app/out/start/cdc_app.o" "$program.by-rattle.o"
}
gate() {
    call "$room/top/tools/records" --check "$@"
    lacks "check $*: no traceback" Traceback "$err"
}
fails() { # fails NAME PATTERN: the last call has failed, with a line
    has "$1" "^records: FAILED: not $2" "$out"
    check "$1: status" 1 "$status"
}
write_all() { # writes all that proved/ has, of what stands here
    rm -rf "$room/top/proved"
    write low library
    write high library
    write cdc_app object
    as_ci
}
gate
check 'check: where there is nothing, only object code has to be there' '2 passed, 1 failed' "$(tail -n 1 <<<"$out")"
fails 'check: no object code' 'the object code in proved/ is of these sources: tools/records --object writes it$'
write_all
call "$room/top/tools/records"
check 'records are listed' 'low: record current, library current
high: record current, library current
cdc_app: record current, object current' "$out"
gate --all
check 'check: all of it' '15 passed, 0 failed' "$(tail -n 1 <<<"$out")"
has 'check: a record' '^records: low as its record makes it is what `rt ci` has built' "$out"
has 'check: a library' '^records: the library of low as it is packed is what `rt ci` has built$' "$out"
has 'check: the program' '^records: cdc_app as its object code is linked is what `rt ci` has built$' "$out"
has 'check: a record from scratch' '^records: the record of high from scratch is the one in proved/$' "$out"
has 'check: one that is spoilt is refused' '^records: with a byte of its verdict changed, the record of low is refused$' "$out"
cat >"$DO/low" <<'LOW'
if [ "$what" = check ]; then
    for _ in $(seq 2400); do if grep -q '^cdc_app: record' "$CALLS"; then break; else sleep 0.05; fi; done
    echo "low: proved after $(tail -n 1 "$CALLS")" >>"$CALLS"
fi
LOW
RT_JOBS=2 gate --all
has 'check: nothing waits for a record from scratch' '^low: proved after cdc_app: record, by rattle$' "$calls"
check 'check: then all of it, too' '15 passed, 0 failed' "$(tail -n 1 <<<"$out")"
echo 'if [ "$what" = check ]; then exit 1; fi' >"$DO/low"
RT_JOBS=1 gate --all
check 'check: a proof that fails' "1 records: low isn't proved: the checker printed nothing" "$status $(head -n 1 <<<"$err")"
rm "$DO/low"
gate --commit 1
check 'check: an eighth from scratch' 1 "$(($(grep -c 'from scratch' <<<"$out") < 3))"
echo different >"$DO/records/high/notes"
gate --all
fails 'check: a record that comes out otherwise' 'the record of high from scratch is the one in proved/$'
write_all
echo different >"$room/top/crates/high/out/rlib/high.rlib/lib"
gate
fails 'check: a library that comes out otherwise' 'high as its record makes it is what `rt ci` has built'
fails 'check: a packed library that is another' 'the library of high as it is packed is what `rt ci` has built$'
write_all
echo '# another' >>"$program.by-rattle"
gate
fails 'check: a program that comes out otherwise' 'cdc_app as its record makes it is what `rt ci` has built'
fails 'check: object code of another program' 'cdc_app as its object code is linked is what `rt ci` has built'
write_all
write cdc_app cdc_app.o=other
gate
fails 'check: object code that is another' 'cdc_app as its object code is linked is what `rt ci` has built'
lacks 'check: then the record is not blamed' 'FAILED: not cdc_app as its record' "$out"
write_all
echo '# not linked' >>"$program.by-rattle.o"
gate
fails 'check: object code that another is linked from the same' 'cdc_app as its object code is linked is what `rt ci` has built'
write_all
rm "$program.by-rattle.o"
gate
check 'check: a program that `rt ci` takes from an earlier run has no object code beside it' 0 "$status"
write_all
write high open
echo 'kit-9 logic l1' >"$room/kit/KIT-ID"
gate
fails 'check: a spoilt record that another kit of the same logic wrote' 'the record of high, which is of what stands here: the toolchain refuses it'
echo 'kit-1 logic l1' >"$room/kit/KIT-ID"
write_all
printf x >>"$room/top/proved/low.record.tar.xz"
gate
fails 'check: a record that was changed' 'the record of low, which is of what stands here: it isn.t the file that'
write_all
echo '// more' >>"$room/top/crates/high/src/lib.rt"
gate
fails 'check: stale object code' 'the object code in proved/ is of these sources: tools/records --object writes it$'
check 'check: a stale record fails nothing' ', 1 failed' "$(tail -n 1 <<<"$out" | grep -o ', .*')"
has 'check: it is named' '^records: that of high is stale: it is of other sources' "$out"
write_all
write low copy
gate
fails 'check: what the toolchain has stands in proved/ once more' 'nothing above 2 KB of proved/ stands in a library of the toolchain$'
has 'check: it is named' '^  low.record: part/Rattle-cdc_own$' "$out"
write_all
truncate -s 50000000 "$room/top/proved/more"
gate
fails 'check: more than 50 MB' 'proved/ has 50,0[0-9,]* bytes, of at most 50,000,000$'
rm "$room/top/proved/more"
other() { # adds the record of a crate that the program no longer has
    cp "$room/top/proved/low.record.tar.xz" "$room/top/proved/gone.record.tar.xz"
    sed -i 's/^{$/{\n "gone": {"record": "x"},/' "$room/top/proved/index.json"
}
other
gate
fails 'check: files of no crate' 'proved/ has files of the program.s crates alone$'
has 'check: a file of no crate is named' '^  gone.record.tar.xz$' "$out"
has 'check: a line of no crate is named' '^  gone$' "$out"

# Writing: what is missing is proved from scratch, and packed.
git -C "$room/top" init -q
echo out/ >"$room/top/.gitignore"
git -C "$room/top" add .gitignore crates crates.txt >/dev/null 2>&1
git -C "$room/top" -c user.name=t -c user.email=t@t commit -qm x
rm -rf "$room/top/proved"
call "$room/top/tools/records" --write
check 'write: status' '0 ' "$status $err"
check 'write: each is proved from scratch, then made from its record' 'low: proved, jobs 1 low: record high: proved, jobs 1 high: record' \
    "$(grep -v has <<<"$calls" | head -n 4 | xargs)"
call "$room/top/tools/records"
check 'write: all is there' '2 1' "$(grep -c 'record current, library current' <<<"$out") $(grep -c 'record current, object current' <<<"$out")"
as_ci
gate --all
check 'write: and is what a check makes' '0 failed' "$(tail -n 1 <<<"$out" | sed 's/.*, //')"
noted() { grep commit "$room/top/proved/index.json"; }
was=$(noted)
rm "$room/top/proved/high.library.tar.xz" "$room/top/proved/cdc_app.object.tar.xz"
git -C "$room/top" -c user.name=t -c user.email=t@t commit -qm y --allow-empty
other
call "$room/top/tools/records" --write
check 'write: a library that is missing is written' '0 ' "$status $err"
check 'write: it needs no proof' '' "$(grep proved <<<"$calls")"
call "$room/top/tools/records"
check 'write: what was missing is there' '0' "$(grep -c none <<<"$out")"
check 'write: the commit that is noted stays' "$was" "$(noted)"
check 'write: what is of no crate goes' '' "$(grep -l gone "$room/top/proved/index.json"; find "$room/top/proved" -name 'gone*')"
echo '// more' >>"$room/top/crates/high/src/lib.rt"
call "$room/top/tools/records" --write
check 'write: of what is committed alone' '1 records: the crates have changes that are not committed' "$status $err"

# The object code alone: of what was just built, while records and libraries stay as they are.
object() { call "$room/top/tools/records" --object; }
commit() {
    git -C "$room/top" add crates crates.txt proved relayplum tools >/dev/null 2>&1
    git -C "$room/top" -c user.name=t -c user.email=t@t commit -qm "$1"
}
nothing="1 records: crates/cdc_app/out has no object code of these sources by Rattle's compiler: run \`rt ci\` first; if that takes the program\
 from an earlier run, \`./relayplum books FILE\`"
object
check 'object: of what is committed alone' '1 records: the crates have changes that are not committed' "$status $err"
commit z
object
check 'object: not of what was built of other sources' "$nothing" "$status $err"
from_scratch
object
check 'object: where nothing is built' "$nothing" "$status $err"
as_ci
rm -r "$room/top/crates/cdc_app/out/start"
others() { cat "$room/top/proved"/*.record.* "$room/top/proved"/*.library.* "$room/top/proved/derived.xz" | sha256sum; }
was=$(others)
object
check 'object: status' '0 ' "$status $err"
check 'object: it needs no proof' '' "$calls"
has 'object: what is written' '^records: cdc_app.object.tar.xz [0-9]* bytes, from crates/cdc_app/out/cdc_app.by-rattle.o$' "$out"
check 'object: no record and no library is written' "$was" "$(others)"
call "$room/top/tools/records"
check 'object: what fits is listed' 'low: record current, library current
high: record stale, library stale
cdc_app: record stale, object current' "$out"
gate
check 'object: a check finds it, though the record is stale' '0 failed' "$(tail -n 1 <<<"$out" | sed 's/.*, //')"
has 'object: it is compared' '^records: cdc_app as its object code is linked is what `rt ci` has built$' "$out"
commit 'with object code'
sources=$(git -C "$room/top" rev-parse --short=10 HEAD~)
git clone -q "$room/top" "$room/clone"
call "$room/clone/relayplum" books x
check 'object: a start in a clone of the commit links it' '0 run with books x ' "$status $out $calls"
has 'object: the commit of the sources is said' "^relayplum: all crates taken from the object code in proved/, of $sources;" "$err"
call "$room/clone/relayplum" --from-records books x
check 'object: --from-records takes the records that fit' "$(printf '%s\n' 'low: record' "$upwards")" "$(grep -v has <<<"$calls")"
as_ci
echo other >"$program.by-rattle.o"
object
check 'object: not one that the program was not linked from' \
    "1 records: crates/cdc_app/out/cdc_app.by-rattle.o isn't what the program beside it was linked from" "$status $err"
rm "$program.by-rattle.o"
object
has 'object: or what a start has compiled' '^records: cdc_app.object.tar.xz [0-9]* bytes, from crates/cdc_app/out/start/cdc_app.o$' "$out"
./link --from-records --optimised books x >/dev/null 2>&1
object
check 'object: but by LLVM' "$nothing" "$status $err"
from_scratch
./link books x >/dev/null 2>&1
object
check 'object: nor of what it has linked itself' "$nothing" "$status $err"
as_ci
rm -r "$room/top/crates/cdc_app/out/start" "$room/top/crates/low/specs/Low.antt"
commit gone
object
check 'object: nor of what was built with a file that is gone' "$nothing" "$status $err"
echo '-- a definition' >"$room/top/crates/low/specs/Low.antt"
commit back
mkdir -p "$room/top/crates/high_tests/src"
echo '// tests' >"$room/top/crates/high_tests/src/lib.rt"
echo 'high_tests: high' >>"$room/top/crates.txt"
commit tests
as_ci
call "$room/top/tools/records" --fits
check 'fits: tests alone have changed' '0 ' "$status $out$err$calls"
gate
check 'object: a change of tests alone leaves it as it is' '0 failed' "$(tail -n 1 <<<"$out" | sed 's/.*, //')"
from_scratch
call ./link books x
has 'object: and a start links it' '^relayplum: cdc_app linked, ' "$err"
echo '// other' >>"$room/top/crates/low/src/lib.rt"
as_ci
call "$room/top/tools/records" --fits
check 'fits: a crate has changed' "1 records: the object code in proved/ isn't of these sources: tools/records --object writes it" "$status $err"
gate
fails 'object: a change of a crate makes it stale' 'the object code in proved/ is of these sources: tools/records --object writes it$'

# Release 1.1.0 has the object code in the line of the record.
git -C "$room/top" checkout -q crates
python3 - "$room/top/proved/index.json" <<'OLD'
import json, sys
with open(sys.argv[1]) as it:
    index = json.load(it)
index["cdc_app"] = {**index["cdc_app"], **index.pop("cdc_app.object")}
with open(sys.argv[1], "w") as it:
    json.dump(index, it)
OLD
from_scratch
call ./link books x
has 'object: one that release 1.1.0 wrote is linked' '^relayplum: cdc_app linked, ' "$err"
as_ci
object
check 'object: then it has a line of its own' '1 ["commit", "identity", "key", "kit", "object"] ["commit", "identity", "key", "kit", "record"]' \
    "$(python3 -c 'import json, sys; it = json.load(open(sys.argv[1])); print(int("cdc_app.object" in it), *(json.dumps(sorted(it.get(name, {}))) for name in ("cdc_app.object", "cdc_app")))' "$room/top/proved/index.json")"

ended
