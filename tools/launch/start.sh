# Starts a program of this repository, for the scripts at its top, which source this file: start NAME [WORD ..]
#
# The proved program runs where it stands and is newer than its sources, then the unproved one in the same way, which takes a
# few milliseconds. Whatever else there is to do (building one, help), launch.py beside this does.

# Whether a program stands that is made of the sources as they are: is_current PROGRAM [WORD_OF_FIND ..], where the words say
# which files count. launch.py writes the stamp after it: a sum, and a line that names what the program is made of.
is_current() {
  local program=$1 stamp=$1.of sum made_of changed
  [ -x "$program" ] && [ -f "$stamp" ] && [ ! "$program" -nt "$stamp" ] || return 1
  { read -r sum && read -r -a made_of; } <"$stamp"
  changed=$(cd "$top" && find "${made_of[@]}" "${@:2}" -newer "$stamp" -print -quit 2>&1)
  [ -z "$changed" ]
}

# Says that nothing is proved, and starts a program: start_unproved PROGRAM [WORD ..]. launch.py calls it too.
start_unproved() {
  echo "${1##*/}: nothing is proved of this yet: ./prove makes the proved program in half an hour or so, and so does .ci/run" >&2
  exec "$@"
}

start() {
  local name=$1 top program
  shift
  top=${BASH_SOURCE[0]%/tools/launch/start.sh}
  program=$top/crates/$name/out
  # Huge pages take a fifth to a third off the time of large data; where the system has none, nothing changes.
  export GLIBC_TUNABLES=${GLIBC_TUNABLES-glibc.malloc.hugetlb=1}
  case ${1-} in
    --help | --unproved) ;;
    *)
      ! is_current "$program/$name" || exec "$program/$name" "$@"
      if is_current "$program/unproved/$name" '(' -name '*.rt' -o -name crates.txt -o -type d ')'; then
        start_unproved "$program/unproved/$name" "$@"
      fi
      ;;
  esac
  exec python3 -B "$top/tools/launch/launch.py" "$name" "$@"
}
