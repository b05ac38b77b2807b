#!/usr/bin/env bash
# Packs what a user needs into dist/paver-VERSION-SYSTEM-MACHINE.tar.gz, with the SHA-256 of each file and of the archive.
#
#     build/dist.sh [PROGRAM]
#
# at the top of the repository, as `make dist` does it; PROGRAM is ./paver where none is given. The same files give the same
# archive: names are sorted, owner and time are fixed, and no modes but 644 and 755 are there. The version stands in
# python/paver/version.py. The time is SOURCE_DATE_EPOCH, or that of the last commit.
set -euo pipefail
cd "$(dirname "$0")/.."
program=${1:-./paver}
[ -x "$program" ] || { echo "dist: $program is no program; make demo builds one" >&2; exit 1; }
version=$(sed -n 's/^VERSION = "\([0-9.]*\)"$/\1/p' python/paver/version.py)
[ -n "$version" ] || { echo "dist: no version in python/paver/version.py" >&2; exit 1; }
when=${SOURCE_DATE_EPOCH:-$(git log -1 --format=%ct 2>/dev/null || echo 0)}
name=paver-$version-$(uname -s | tr '[:upper:]' '[:lower:]')-$(uname -m)
made=$(mktemp -d)
trap 'rm -rf "$made"' EXIT
to=$made/$name

install -D -m 755 "$program" "$to/bin/paver"
if command -v strip >/dev/null; then
    strip "$to/bin/paver"
else
    echo "dist: there is no strip, so the program keeps its symbols" >&2
fi
install -D -m 644 docs/paver.1 "$to/share/man/man1/paver.1"
install -D -m 644 completions/paver.bash "$to/share/bash-completion/completions/paver"
install -D -m 644 completions/_paver "$to/share/zsh/site-functions/_paver"
install -D -m 644 completions/paver.fish "$to/share/fish/vendor_completions.d/paver.fish"
install -D -m 644 -t "$to" README.md CHANGELOG.md CONTRIBUTING.md
find docs python examples -type f ! -path '*/.*' ! -path '*/__pycache__/*' ! -name '*.pyc' ! -path '*/build/*' ! -path '*.egg-info/*' -print0 | sort -z |
    while IFS= read -r -d '' file; do install -D -m 644 "$file" "$to/$file"; done
(cd "$to" && find . -type f ! -name SHA256SUMS -printf '%P\0' | LC_ALL=C sort -z | xargs -0 sha256sum >"$made/sums")
install -m 644 "$made/sums" "$to/SHA256SUMS"

mkdir -p dist
tar --format=ustar --sort=name --owner=0 --group=0 --numeric-owner --mtime="@$when" --mode='u=rwX,go=rX' \
    -C "$made" -cf - "$name" | gzip -9 -n >"dist/$name.tar.gz"
(cd dist && sha256sum "$name.tar.gz" | tee "$name.tar.gz.sha256")
