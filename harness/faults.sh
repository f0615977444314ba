# Sourced by run.sh: each edit under faults/ is made to a copy of the harness, whose plain model (or
# the memory that it leaves) is then wrong, and a short run against the Rust must notice it.
missed=0
for edit in "$here"/faults/*.edit; do
    name=$(basename "$edit" .edit)
    copy=$out/faults/$name
    rm -rf "$copy"
    mkdir -p "$(dirname "$copy")"
    cp -r "$here/src" "$copy"
    python3 - "$edit" "$copy" <<'PYTHON'
import sys
fields = dict(line.split(": ", 1) for line in open(sys.argv[1]).read().splitlines() if line)
path = sys.argv[2] + "/" + fields["file"]
text = open(path).read()
assert text.count(fields["old"]) == 1, f"{sys.argv[1]}: the old text stands {text.count(fields['old'])} times"
open(path, "w").write(text.replace(fields["old"], fields["new"]))
PYTHON
    build_program "$copy" "$copy/harness" --edition 2024 -A warnings
    if "$copy/harness" --against plain --books 4000 --shown 1 ${words[@]+"${words[@]}"} > "$copy/said"; then
        echo "$name: NOT noticed"
        missed=$((missed + 1))
    else
        books=$(sed -n 's/^books \([0-9]*\),.*/\1/p' "$copy/said")
        echo "$name: noticed in $(sed -n 's/^disagreements //p' "$copy/said") of $books books; the first, shrunk:"
        sed -n '/^book .*shrunk/,$p' "$copy/said" | sed -n '3p;5p' | cut -c1-300 | sed 's/^/    /'
    fi
done
echo "$missed faults not noticed"
[ "$missed" = 0 ]
