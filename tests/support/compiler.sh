# A compiler for tests of the program. It leaves each request that it gets whole as a file of the folder REQUESTS, whose
# name begins with the time of the start, and gives the request's digest as the artefact. Where the source says
# `-- child: refuse TEXT`, it prints the first such TEXT and refuses the file. DELAY is how many seconds it takes besides.
request=$REQUESTS/$(date +%s%N).$$
cat >"$request.part" || exit 9
mv -- "$request.part" "$request"
if refused=$(grep -a -o -m 1 -e '-- child: refuse .*' "$request"); then
    printf '%s\n' "${refused#-- child: refuse }"
    exit 1
fi
[ -z "${DELAY-}" ] || sleep "$DELAY"
sha256sum <"$request"
