# Debian's packages, unpacked under target/ and never installed. Scripts read this file in.

# Puts a copy in place of each link below a folder, and nothing where it leads nowhere: `rt ci` refuses links in a checkout.
without_links() {
    find "$1" -type l | while IFS= read -r link; do
        if [ -e "$link" ]; then cp -rL "$link" "$link.copy" && rm "$link" && mv "$link.copy" "$link"; else rm "$link"; fi
    done
}

# Fetches packages and unpacks them into a folder, whole or not at all; what was unpacked before is taken as it is. The
# words after the folder are apt-get's: `download` and packages, or `install` and packages, for all that they need too.
unpack() {
    unpacked=$1
    shift
    [ ! -d "$unpacked" ] || return 0
    fetched=$unpacked.part
    rm -rf "$fetched"
    mkdir -p "$fetched/archives/partial" "$fetched/root"
    (
        cd "$fetched/archives" &&
            timeout 120 apt-get -q -y --download-only --no-install-recommends -o Debug::NoLocking=1 \
                -o Dir::Cache="${PWD%/archives}" -o Acquire::Retries=0 -o Acquire::http::Timeout=10 "$@" &&
            for package in ./*.deb; do dpkg-deb -x "$package" ../root || exit 1; done && without_links ../root
    ) >"$unpacked.log" 2>&1 && mv "$fetched/root" "$unpacked"
    status=$?
    rm -rf "$fetched"
    return $status
}
