# For the scripts in this folder: goes to the root, and gives the library's archives.
# DRIVE_LIB_DIR names a folder that has them already; else each is proved and written first.
folder=${DRIVE_LIB_DIR:+$(realpath -m -- "$DRIVE_LIB_DIR")}
cd "$(dirname "${BASH_SOURCE[0]}")/.." || exit 2

# The path of a crate's archive.
archive() { # crate
    local path=${folder:-crates/$1/out}/lib$1.a proved status
    if [ -z "$folder" ]; then
        proved=$(cd "crates/$1" && rt lib 2>&1) || {
            status=$?
            printf '%s\n' "$proved" >&2
            exit "$status"
        }
    fi
    if [ ! -f "$path" ]; then
        echo "bench: no $path: run rt lib in crates/$1" >&2
        exit 2
    fi
    echo "$path"
}
