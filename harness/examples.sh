# Sourced by run.sh: builds and runs the examples by the commands that README.md gives for them (its indented lines that
# begin with cc or rustc and name a file of examples/), and holds what each prints to examples/k1.out.
cd "$top"
mkdir -p target
mapfile -t commands < <(sed -nE 's/^    ((cc|rustc) .*examples\/.*)/\1/p' README.md)
[ ${#commands[@]} = 2 ] || { echo "README.md has ${#commands[@]} commands for the examples, not 2" >&2; exit 2; }
differ=0
for command in "${commands[@]}"; do
    [ "$archive" = "$top/crates/wirumbane/out" ] || command=${command//crates\/wirumbane\/out/$(printf %q "$archive")}
    echo "$command"
    if bash -c "$command" > target/example.out && diff examples/k1.out target/example.out; then
        echo "as examples/k1.out"
    else
        echo "NOT as examples/k1.out"
        differ=1
    fi
done
exit $differ
