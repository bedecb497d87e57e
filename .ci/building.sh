# What ./syslogr and .ci/run share, which both source this: of which crates the program sg_top
# consists, the sums by which it is known what was built of which sources, and how many crates to
# prove at a time.

# The lines of the file crates.txt in the folder $1 that name the program's crates: its own and all
# that it stands on.
list_crates() {
    awk '
        { sub(/#.*/, "") }
        split($0, half, ":") == 2 {
            split(half[1], word, " ")
            name[++count] = word[1]
            line[count] = $0
            needs[word[1]] = half[2]
        }
        function add(crate, below, total, i) {
            if (!(crate in needs) || crate in added) return
            added[crate]
            total = split(needs[crate], below, " ")
            for (i = 1; i <= total; i++) add(below[i])
        }
        END {
            add("sg_top")
            for (i = 1; i <= count; i++) if (name[i] in added) print line[i]
        }
    ' "$1/crates.txt"
}

# The names in such lines.
names() {
    sed 's/[ :].*//'
}

sum() {
    sha256sum | cut -d ' ' -f 1
}

# One sum of all that the program in the folder $1 is made of.
sum_sources() {
    (
        cd "$1" || exit
        crates=$(list_crates .)
        set --
        for crate in $(echo "$crates" | names); do
            for part in src specs proofs; do
                [ ! -d "crates/$crate/$part" ] || set -- "$@" "crates/$crate/$part"
            done
        done
        {
            echo "$crates"
            cat HANDLES
            find "$@" -type f -exec sha256sum {} + | LC_ALL=C sort
        } | sum
    )
}

# Writes down that the program $1 was made of the sources with the sum $2.
record() {
    echo "$2 $(sum <"$1")" >"$1.sources.$$" && mv "$1.sources.$$" "$1.sources"
}

# Whether that was written down of the program $1 as it is. Then $made_of is the sum of its sources.
is_recorded() {
    made_of='' program_sum=''
    # shellcheck disable=SC2034
    [ -x "$1" ] && [ -r "$1.sources" ] && read -r made_of program_sum <"$1.sources" &&
        [ "$program_sum" = "$(sum <"$1")" ]
}

# How many MB of memory a new process finds, also under the limit of a control group.
available_memory() {
    group=/sys/fs/cgroup
    set --
    for file in /proc/meminfo "$group/memory.max" "$group/memory.stat"; do
        [ ! -r "$file" ] || set -- "$@" "$file"
    done
    [ $# = 0 ] || awk '
        $1 == "MemAvailable:" { available = $2 * 1024 }
        FILENAME ~ /memory.max$/ && /^[0-9]/ { limit = $1 }
        $1 == "anon" { held = $2 }
        END {
            if (limit != "" && limit - held < available) available = limit - held
            if (available > 0) printf "%d\n", available / 1048576
        }
    ' "$@"
}

# How many processors there are to use, also under the quota of a control group.
available_processors() {
    processors=$(nproc 2>/dev/null || getconf _NPROCESSORS_ONLN 2>/dev/null || echo 1)
    quota=/sys/fs/cgroup/cpu.max
    [ ! -r "$quota" ] || processors=$(awk -v most="$processors" '
        { print ($1 != "max" && int($1 / $2) < most) ? int($1 / $2) : most }
    ' "$quota")
    echo "$processors"
}

# Has `rt ci` prove a crate on each processor, as far as there are 3 GB of memory for each of them.
# Where there are for fewer than two, and where RT_JOBS is set, nothing is changed.
set_jobs() {
    [ -z "${RT_JOBS-}" ] || return 0
    jobs=$(available_processors)
    memory=$(available_memory)
    fitting=$((${memory:-0} / 3000))
    [ "$fitting" -ge "$jobs" ] || jobs=$fitting
    [ "$jobs" -lt 2 ] || export RT_JOBS="$jobs"
}
