#!/bin/sh
# ready.sh: whether the judge can be built here, and if not, why. Debian's packages are installed where they are missing and root runs this.
cd "$(dirname "$0")" || exit 1
if [ ! -f "${OXC_SRC:-../../../shared/docs/src}/path.rs" ]; then
    echo "The judge is not built: the crate's files are not at hand (OXC_SRC)."
    exit 1
fi
packages=$(sed -n 's/.*\(librust-[a-z-]*-dev\).*/&/p' setup.sh | tr ' ' '\n' | grep '^librust-')
# shellcheck disable=SC2086
if dpkg -s $packages >/dev/null 2>&1; then exit 0; fi
if [ "$(id -u)" = 0 ] && ./setup.sh >/dev/null 2>&1; then exit 0; fi
echo "The judge is not built: Debian's packages are missing (host/judge/setup.sh)."
exit 1
