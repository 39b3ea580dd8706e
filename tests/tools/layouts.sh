# Sourced by the scripts beside it: makes a folder of layouts, $folder, from the example tickets, the hardest boxes of some shapes and
# $1 random tickets, 100 if left out. A layout NAME is NAME.ticket (the flat ticket as text), NAME.wiring, NAME.gds, NAME.def, NAME.lef.
# shellcheck shell=bash
random=${1:-100}
cargo build -q --release --offline --manifest-path bindings/rust/Cargo.toml
pozqaben=bindings/rust/target/release/pozqaben
folder=$(mktemp -d)
trap 'rm -rf "$folder"' EXIT

install_missing() { # PROGRAM, a package of that name
    command -v "$1" >/dev/null || { apt-get update && apt-get install -y --no-install-recommends "$1"; }
}

# A ticket's wirings: the one that is laid and, of a box, the one on the fewest layers that a short search finds. Solid two-layer
# channels have none.
layouts_of() { # NAME TICKET
    local name=$1 ticket=$2 wiring
    "$pozqaben" lay "$ticket" -o "$folder/$name-laid.wiring" 2>"$folder/refusal" || {
        grep -q '^refused 17 ' "$folder/refusal" && return
        cat "$folder/refusal" && exit 1
    }
    "$pozqaben" flatten "$ticket" -o "$folder/$name.text"
    if grep -q '^box' "$folder/$name.text"; then
        "$pozqaben" squeeze "$ticket" --budget 2000 -o "$folder/$name-squeezed.wiring" >"$folder/line" 2>&1
    fi
    for wiring in "$folder/$name"-*.wiring; do
        wiring=${wiring%.wiring}
        cp "$folder/$name.text" "$wiring.ticket"
        "$pozqaben" gds "$ticket" "$wiring.wiring" -o "$wiring.gds"
        "$pozqaben" def "$ticket" "$wiring.wiring" -o "$wiring.def" --lef "$wiring.lef"
    done
}

for ticket in examples/*.ticket examples/*.flat; do
    layouts_of "$(basename "$ticket" | tr . _)" "$ticket"
done
for shape in '1 1' '1 90' '90 1' '2 2' '7 3' '20 20' '40 40' '90 90'; do
    # shellcheck disable=SC2086  # two words
    "$pozqaben" hardest $shape -o "$folder/box"
    layouts_of "hardest_${shape/ /x}" "$folder/box"
done
python3 tests/tools/tickets.py "$random" "$folder"
for ticket in "$folder"/random_*.flat; do
    layouts_of "$(basename "$ticket" .flat)" "$ticket"
done
