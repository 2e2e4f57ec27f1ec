#!/usr/bin/env bash
# 01: "A gateway ID, a frame type, a packet number and a command sequence number are separate kinds, and none may stand in for another."
# For any two of them, a function that takes the one and gives it for the other must not compile; one that gives it for itself must.
# And at a call of each function that takes two kinds, from the transport step inwards, the two arguments exchanged must not compile.
# A new kind is a word more in KINDS, a new such function a line more in `exchanges`.
set -eu
cd "$(dirname "$0")/.."
root=$PWD
KINDS="address::GatewayID link::Type transport::PacketNumber transport::CommandSequenceNumber"

# CRATE, how often the call stands there, the call, and the call with two arguments exchanged
exchanges() {
    cat <<'CALLS'
command_frames|2|command_key(address.gateway(), sequence)|command_key(sequence, address.gateway())
plain_frames|1|by_type(counters, address, frame_type, payload)|by_type(counters, Address::To(frame_type), address.gateway(), payload)
transport_receiver|1|untabled(counters, address, frame_type, payload)|untabled(counters, Address::To(frame_type), address.gateway(), payload)
transport_receiver|1|counters, address,\n        frame_type, payload,|counters, Address::To(frame_type),\n        address.gateway(), payload,
transport_receiver|1|            address,\n            frame_type,\n|            frame_type,\n            address,\n
CALLS
}

work=$(mktemp -d)
trap 'rm -rf "$work"' EXIT

# A repository of some crates of this one and all that they use, and of the crate mix, which uses some of them: WHERE, what mix uses.
lay_out() {
    rm -rf "$work/mix"
    mkdir -p "$work/mix/crates/mix/src"
    python3 - "$root" "$work/mix" "$1" <<'PY'
import os, shutil, sys
root, to, uses = sys.argv[1], sys.argv[2], sys.argv[3].split()
deps = {}
for line in open(f"{root}/crates.txt", encoding="utf-8"):
    line = line.split("#")[0].strip()
    if ":" in line:
        name, rest = line.split(":")
        deps[name.split()[0]] = rest.split()
need, todo = [], list(uses)
while todo:
    n = todo.pop()
    if n in deps and n not in need:
        need.append(n)
        todo += deps[n]
with open(f"{to}/crates.txt", "w", encoding="utf-8") as f:
    for n in need:
        f.write(f"{n}: {' '.join(deps[n])}\n")
        for part in ("src", "specs", "proofs"):
            if os.path.isdir(f"{root}/crates/{n}/{part}"):
                shutil.copytree(f"{root}/crates/{n}/{part}", f"{to}/crates/{n}/{part}")
    f.write(f"mix: {' '.join(uses)}\n")
PY
}

# whether the crate mix is accepted; what was said is in $work/said
accepts() { (cd "$work/mix/crates/mix" && rt check) >"$work/said" 2>&1; }

# Each kind for itself, in one crate; and each for each other, a function on a line of its own, every one of which must be refused for its type.
lay_out "$(printf '%s\n' $KINDS | sed 's/::.*//' | sort -u | tr '\n' ' ')"
pairs=0
for kind in $KINDS; do
    pairs=$((pairs + 1))
    printf 'pub fn given%d(x: %s) -> %s {\n    x\n}\n' "$pairs" "$kind" "$kind"
done >"$work/mix/crates/mix/src/lib.rt"
if ! accepts; then
    echo "kinds: a kind for itself is refused:"
    cat "$work/said"
    exit 1
fi
same=$pairs
: >"$work/mix/crates/mix/src/lib.rt"
wanted=()
line=0
for from in $KINDS; do
    for to in $KINDS; do
        [ "$from" != "$to" ] || continue
        pairs=$((pairs + 1))
        printf 'pub fn given%d(x: %s) -> %s {\n    x\n}\n' "$pairs" "$from" "$to" >>"$work/mix/crates/mix/src/lib.rt"
        wanted+=("src/lib.rt:$((line + 2)):5: error[mismatched-types]: expected \`${to##*::}\`, found \`${from##*::}\`")
        line=$((line + 3))
    done
done
if accepts; then
    echo "kinds: one kind for another is accepted"
    exit 1
fi
for want in "${wanted[@]}"; do
    if ! grep -qF "$want" "$work/said"; then
        echo "kinds: not refused for its type: $want"
        cat "$work/said"
        exit 1
    fi
done

calls=0
while IFS='|' read -r crate times call exchanged; do
    lay_out "$(sed -n "s/^$crate: *//p" crates.txt)"
    rm -rf "$work/mix/crates/mix"
    mkdir -p "$work/mix/crates/$crate"
    cp -r "crates/$crate/src" "crates/$crate/specs" "crates/$crate/proofs" "$work/mix/crates/$crate/"
    sed -i "s/^mix: /$crate: /" "$work/mix/crates.txt"
    python3 - "$work/mix/crates/$crate/src/lib.rt" "$times" "$call" "$exchanged" <<'PY'
import sys
path, times, call, exchanged = sys.argv[1:]
call, exchanged = call.replace("\\n", "\n"), exchanged.replace("\\n", "\n")
text = open(path, encoding="utf-8").read()
if text.count(call) != int(times):
    sys.exit(f"kinds: the call stands there {text.count(call)} times, not {times}: {call}")
open(path, "w", encoding="utf-8").write(text.replace(call, exchanged))
PY
    if (cd "$work/mix/crates/$crate" && rt check) >"$work/said" 2>&1; then
        echo "kinds: in crates/$crate, $exchanged is accepted"
        exit 1
    elif ! grep -q 'error\[mismatched-types\]' "$work/said"; then
        echo "kinds: in crates/$crate, $exchanged is refused, but not for its type:"
        cat "$work/said"
        exit 1
    fi
    calls=$((calls + 1))
done < <(exchanges)
echo "kinds: $pairs pairs, $same of them a kind for itself, each kind stands for itself alone; $calls calls with two kinds exchanged are refused"
