# A compiler for tests of the program: the one that is part of it, whose artefact says a file's units and script lines, and nothing of a
# comment. It leaves each request that it gets whole as a file of the folder REQUESTS, whose name begins with the time of the
# start.
request=$REQUESTS/$(date +%s%N).$$
cat >"$request.part" || exit 9
mv -- "$request.part" "$request"
exec "$VUNIT_RUN" child-analyse <"$request"
