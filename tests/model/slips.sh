#!/usr/bin/env bash
# Serves the model with one deliberate slip after another and shows what catches each. A slip in the reading or
# playing of a recording is tried by recordings alone, one in setpoints by pages alone, one in Intel HEX files by these
# alone, one in rounds by rounds alone, every other one by list and wire alone.
# Further flags are passed on to the tester, for example --seed 7; `--only WORD` tries the slips whose line has the word.
set -u
here=$(cd "$(dirname "${BASH_SOURCE[0]}")" && pwd)
root=$(cd "$here/../.." && pwd)
only=""
if [[ ${1-} == --only ]]; then
    only=$2
    shift 2
fi
export CARGO_TARGET_DIR="$root/target/model"
cargo build --quiet --offline --release --jobs 1 --manifest-path "$here/Cargo.toml" || exit 1
model="$CARGO_TARGET_DIR/release/wire-model"
served=$(printf '%q' "$model")

clean=$("$model" --list "$served --serve-list" --wire "$served --serve-wire" \
    --playback "$served --serve-playback" --setpoint "$served --serve-setpoint" \
    --hexfile "$served --serve-hexfile" --round "$served --serve-round" "$@" | tail -n 1)
echo "without a slip: $clean"
[[ $clean == *" 0 failed" ]] || exit 1

total=0
caught=0
while read -r name text; do
    [[ "$name $text" == *"$only"* ]] || continue
    total=$((total + 1))
    if [[ $text == recording:* ]]; then
        programs=(--playback "$served --slip $name --serve-playback")
    elif [[ $text == setpoint:* ]]; then
        programs=(--setpoint "$served --slip $name --serve-setpoint")
    elif [[ $text == hexfile:* ]]; then
        programs=(--hexfile "$served --slip $name --serve-hexfile")
    elif [[ $text == round:* ]]; then
        programs=(--round "$served --slip $name --serve-round")
    else
        programs=(--list "$served --slip $name --serve-list" --wire "$served --slip $name --serve-wire")
    fi
    if ! output=$("$model" "${programs[@]}" --stop 1 --wait 2 "$@" 2>&1); then
        by=$(grep -m 1 '^DIFFERENCE' <<<"$output")
    elif ! output=$("$model" --cases --slip "$name"); then
        by=$(grep -m 1 '^case fails' <<<"$output")
    else
        by=""
    fi
    if [[ -n $by ]]; then
        caught=$((caught + 1))
    fi
    printf '%-20s %-58s %s\n' "$name" "$text" "${by:-NOT CAUGHT}"
done < <("$model" --slips)

echo "$caught of $total slips caught"
[[ $caught == "$total" ]]
