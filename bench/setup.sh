# What the scripts that time the program begin with: the sizes of the inputs, the built program, and a folder for sessions.
# It is read by them with `bench` and `size` set, and sets `vertices`, `edges`, `pregeld` and `work`.
case $size in
  small) vertices=10000 edges=100000 ;;
  full) vertices=100000 edges=1000000 ;;
  *) echo "the size is small or full" >&2; exit 2 ;;
esac
pregeld=${PREGELD:-$bench/../crates/pregeld_main/out/pregeld_main}
if [ ! -x "$pregeld" ]; then
  echo "build it first: cd crates/pregeld_main && rt run -- --program sssp < /dev/null" >&2
  exit 2
fi
work=$(mktemp -d)
trap 'rm -rf "$work"' EXIT
