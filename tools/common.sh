# Sourced by the scripts: what several of them need.

# Whether the file $1 is missing, or older than a file or folder of those after it, or than something below one. A
# folder is newer where a file was added to it or removed.
older() (
    made=$1
    shift
    [ ! -e "$made" ] || [ -n "$(find "$@" -newer "$made" | head -n 1)" ]
)

# Ends the script with status 2, and a line that begins with $1, where rt is not on the PATH, or is none of those that
# the file `toolchain` names.
right_rt() {
    command -v rt >/dev/null || {
        echo "$1: rt, the command of the Rattle toolchain, is not on the PATH" >&2
        exit 2
    }
    found=$(rt version) || found="nothing"
    grep -q -x -F -e "$found" toolchain || {
        echo "$1: rt version prints '$found', which is no line of the file toolchain" >&2
        exit 2
    }
}

# Whether rt is the one whose version the file $1 holds. Without rt nothing can be made anew, so this is not asked.
same_rt() {
    ! command -v rt >/dev/null || rt version 2>/dev/null | cmp -s - "$1"
}

# Waits until no other build runs at this root, and says so once, in a line that begins with $1. The lock is let go when
# this process, and all that it started, has ended. Where there is no flock it is a link to the number of the process,
# which the caller removes at its end ($held); a link that a process left which is gone is taken over.
held=
one_build() {
    mkdir -p target
    waiting="$1: another build runs here; waiting for its end"
    if command -v flock >/dev/null; then
        exec 9>>target/lock
        flock -n 9 || {
            echo "$waiting" >&2
            flock 9
        }
        return
    fi
    link=target/lock.process
    until ln -s $$ $link 2>/dev/null; do
        holder=$(readlink $link) || continue
        if [ ! -e "/proc/$holder" ]; then
            take_from "$holder"
            continue
        fi
        [ -z "$waiting" ] || echo "$waiting" >&2
        waiting=
        sleep 1
    done
    held=$link
}

# Removes the link of the process $1, which is gone. One process at a time does so, and looks again before.
take_from() {
    mkdir "$link.$1" 2>/dev/null || {
        sleep 1
        return 0
    }
    [ "$(readlink $link)" != "$1" ] || rm -f $link
    rmdir "$link.$1"
}
