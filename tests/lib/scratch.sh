# A folder for the files of a script, `scratch`, which goes with it. The scripts of tests/ and of bench/ have it by their own lib/.
scratch=$(mktemp -d) || exit 1
trap 'rm -rf "$scratch"' EXIT

# in_memory: the folder, which is empty still, lies in memory from now on where the machine has room for files there.
in_memory() {
    if [[ -d /dev/shm && -w /dev/shm ]]; then
        rmdir "$scratch"
        export TMPDIR=/dev/shm
        scratch=$(mktemp -d) || exit 1
    fi
}
