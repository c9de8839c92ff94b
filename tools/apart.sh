# shellcheck shell=bash
# Sourced by ./check and tools/proved.sh. What 'apart' starts has a process group of its own and puts its temporary files into the
# folder $scratch; both are gone when the script ends, however it ends. They lie on the disk: rt starts as many checks side by side as
# the memory that is free holds, and a folder in memory would take from that.
scratch=$(mktemp -d)
# rt runs programs as nobody, from a folder in there
chmod 711 "$scratch"
group=

# Ends what runs apart: gently, and what is left after two seconds by force.
end_group() {
  [ -n "$group" ] || return 0
  kill -TERM -- "-$group" 2> /dev/null || return 0
  wait "$group" 2> /dev/null || true
  for _ in {1..20}; do
    kill -0 -- "-$group" 2> /dev/null || return 0
    sleep 0.1
  done
  kill -KILL -- "-$group" 2> /dev/null || true
}

leave() {
  trap '' HUP INT TERM
  end_group
  rm -rf "$scratch"
  trap - EXIT HUP INT TERM
}
trap leave EXIT
trap 'exit 129' HUP
trap 'exit 130' INT
trap 'exit 143' TERM

apart() { # COMMAND...
  set -m
  TMPDIR=$scratch "$@" < /dev/null &
  group=$!
  set +m
  wait "$group"
  group=
}
