#!/usr/bin/env bash
# Installs what optional tests want, from Debian's packages, and says what is missing in the end. It never fails: a test
# that lacks something says so and is skipped.
#
#     tests/runners/install_optional.sh [--dry-run]
#
# It does nothing where all is there, where it isn't root or where there is no apt-get. SECONDS_TO_FETCH bounds how long
# packages are fetched (300); what came until then is installed.
set -u
limit=${SECONDS_TO_FETCH:-300}

# A line each: a command, or a module of the system's Python, then its package; the large ones last.
wanted() {
    cat <<'LIST'
strace strace
sqlite3 sqlite3
rsvg-convert librsvg2-bin
/usr/sbin/munged munge
/usr/sbin/slurmctld slurm-wlm
module:distributed python3-distributed
module:dask python3-dask
module:matplotlib python3-matplotlib
fish fish
zsh zsh
octave octave
chromium chromium
LIST
}

is_there() {
    case $1 in
    module:*) python3 -c "import ${1#module:}" 2>/dev/null || /usr/bin/python3 -c "import ${1#module:}" 2>/dev/null ;;
    *) command -v "$1" >/dev/null ;;
    esac
}

# The packages whose commands or modules are missing, a line each.
missing() {
    local name package
    while read -r name package; do
        is_there "$name" || echo "$package"
    done < <(wanted)
}

apt() {
    DEBIAN_FRONTEND=noninteractive timeout "$1" \
        apt-get -qq -o Acquire::Retries=0 -o Acquire::http::Timeout=20 -o DPkg::Lock::Timeout=60 "${@:2}" </dev/null
}

# Fetches each package while there is time. Unpacking has as long again: one that is cut short leaves a package half there.
install() {
    local until=$((SECONDS + limit)) package
    apt "$limit" update || return
    for package in "$@"; do
        [ "$SECONDS" -lt "$until" ] || return
        apt $((until - SECONDS)) install -y --no-install-recommends --download-only "$package" &&
            apt "$limit" install -y --no-install-recommends --no-download "$package"
    done
}

mapfile -t lacking < <(missing)
[ ${#lacking[@]} -gt 0 ] || exit 0
if [ "${1:-}" = --dry-run ]; then
    printf 'would be installed: %s\n' "${lacking[*]}"
elif [ "$(id -u)" -ne 0 ] || ! command -v apt-get >/dev/null; then
    printf 'skipped: nothing can be installed here, and these packages are missing: %s\n' "${lacking[*]}"
else
    install "${lacking[@]}" >/dev/null 2>&1
    mapfile -t lacking < <(missing)
    [ ${#lacking[@]} -eq 0 ] || printf 'skipped: these packages could not be installed: %s\n' "${lacking[*]}"
fi
exit 0
